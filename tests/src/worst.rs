//! Sites on which a search takes long, of two sizes, the larger one at the limits of a site file. The routes in question lead from state 0 at tick 0 to the
//! last state. The margin is 0.

use crate::gen::Rng;
use crate::literal::{Motion, Site, State, Sweep};

const H: usize = 1_000;

/// How large a site is. Each cell has a state, and the last state shares one.
#[derive(Clone, Copy)]
pub struct Scale {
    pub cells: usize,
    /// Motions of span 1, and how many of a walk's lead back.
    hops: usize,
    back: usize,
    /// As many motions of 16 sweeps as 65,536 bytes have room for.
    long: usize,
}

/// 256 states and 2,000 motions; and as many cells as there can be, with as many motions as the file then has room for.
pub const SCALES: [Scale; 2] = [Scale { cells: 255, hops: 2_000, back: 1_700, long: 888 }, Scale { cells: 1_000, hops: 3_720, back: 2_700, long: 826 }];

/// The number of the kinds of cases.
pub const KINDS: usize = 5;
pub const NAMES: [&str; KINDS] = ["zigzag", "zigzag, a third held", "16 sweeps of 255", "handovers last", "walk"];

fn site(scale: Scale, speed: u8, last: State, motions: Vec<Motion>) -> Site {
    let states = (0..scale.cells).map(|cell| State { cell: cell as u16, speed }).chain([last]).collect();
    Site { h: H, c: scale.cells, margin: 0, states, motions, centres: vec![] }
}

/// A motion of span 1 from the state of a cell to a state in another cell.
fn hop(from: usize, to: usize, cell_to: usize) -> Motion {
    let sweeps = vec![Sweep { cell: from as u16, a: 0, b: 1 }, Sweep { cell: cell_to as u16, a: 1, b: 1 }];
    Motion { from: from as u16, to: to as u16, d: 1, sweeps }
}

/// The states are rolling, and every motion leads from one half of them to the other, with span 1: a tug has to move at every tick, and what is
/// reached changes at every tick. No motion leads to the last state.
pub fn zigzag(rng: &mut Rng, scale: Scale) -> Site {
    let half = scale.cells.div_ceil(2);
    let motions = (1..scale.hops).map(|k| {
        let from = (k - 1) % scale.cells;
        let to = if from < half { rng.range(half, scale.cells - 1) } else { rng.below(half) };
        hop(from, to, to)
    });
    site(scale, 1, State { cell: 0, speed: 0 }, motions.collect())
}

/// The same with one motion more, which leads to the last state from one of the second half.
pub fn zigzag_with_an_end(rng: &mut Rng, scale: Scale) -> Site {
    let mut site = zigzag(rng, scale);
    let from = rng.range(scale.cells.div_ceil(2), scale.cells - 1);
    site.motions.push(hop(from, scale.cells, 0));
    site
}

/// Every motion has the longest span, and 16 sweeps about as long. No motion leads to the last state.
pub fn long_sweeps(rng: &mut Rng, scale: Scale) -> Site {
    let motions = (0..scale.long).map(|k| {
        let from = k % scale.cells;
        let to = (7 * from + 1) % scale.cells;
        let mut sweeps = vec![Sweep { cell: from as u16, a: 0, b: 255 }, Sweep { cell: to as u16, a: 0, b: 255 }];
        sweeps.extend((2..16).map(|_| Sweep { cell: rng.below(scale.cells) as u16, a: 0, b: 254 }));
        Motion { from: from as u16, to: to as u16, d: 255, sweeps }
    });
    site(scale, 0, State { cell: 0, speed: 0 }, motions.collect())
}

/// Each motion hands over between sweeps of one offset each, and the sweeps that do come last. No motion leads to the last state.
pub fn handovers(scale: Scale) -> Site {
    const SPAN: u8 = 7;
    let motions = (0..scale.long).map(|k| {
        let from = k % (scale.cells - 1);
        let to = from + 1;
        let at_end = (100..107).chain([to]).map(|cell| Sweep { cell: cell as u16, a: SPAN, b: SPAN });
        let one_by_one = (0..=SPAN).map(|j| Sweep { cell: from as u16, a: j, b: j });
        Motion { from: from as u16, to: to as u16, d: SPAN, sweeps: at_end.chain(one_by_one).collect() }
    });
    site(scale, 0, State { cell: 0, speed: 0 }, motions.collect())
}

/// Rolling states in a row. Many motions of low numbers lead two states back, those of the highest numbers one state on and, from the end, to the start
/// or to the last state, which is standing.
pub fn walk(scale: Scale) -> Site {
    let end = scale.cells - 2;
    let back = (0..scale.back).map(|k| 2 + k % 200).map(|from| hop(from, from - 2, from - 2));
    let on = (0..end).map(|from| hop(from, from + 1, from + 1));
    let out = [hop(end, 0, 0), hop(end, scale.cells, scale.cells - 1)];
    site(scale, 1, State { cell: (scale.cells - 1) as u16, speed: 0 }, back.chain(on).chain(out).collect())
}

fn row(board: &mut [u8], cell: usize) -> &mut [u8] {
    &mut board[4 + cell * (H + 1)..][..H + 1]
}

fn hold_a_third(rng: &mut Rng, ticks: &mut [u8]) {
    ticks.iter_mut().filter(|_| rng.below(3) == 0).for_each(|byte| *byte = 200);
}

/// A site of a kind, and a board. The board is free, but for the second kind, where one pair in three is held after the first ticks, in which a tug
/// reaches many states; and for the walk, where the last state's cell is held for 980 ticks, so that the tug makes 980 motions or more.
pub fn case(rng: &mut Rng, kind: usize, scale: Scale) -> (Site, Vec<u8>) {
    let site = match kind {
        0 | 1 => zigzag(rng, scale),
        2 => long_sweeps(rng, scale),
        3 => handovers(scale),
        _ => walk(scale),
    };
    let mut board = vec![0; site.board_len()];
    match kind {
        1 => (0..scale.cells).for_each(|cell| hold_a_third(rng, &mut row(&mut board, cell)[4..])),
        4 => row(&mut board, scale.cells - 1)[..980].fill(200),
        _ => {}
    }
    (site, board)
}
