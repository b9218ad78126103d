//! The time of the whole route call on generated sites of 200 states, 1,000 motions and H 1,000, with at most a tenth of the board held: the desk's, that
//! of the plain program (`plain`) and that of the simple one (`pull`). Number, light, arrival and working area of the three must be equal.
//! The first tables are of routes with at least 400 ticks from start to arrival; then come routes below 100 ticks, and routes that are refused with 18.
//! Each dwell has tables of its own, over sites and boards from the same seed; the first one of dwell 0 is as it was before there was a dwell.
//! Then come the sites on which a search takes long (`worst`), and the time of the site's check alone, which every call on a site begins with. Last come
//! halls of 250 and of 1,000 cells, to see what size costs.
//!
//! `./bench`; ROUTES sets how many routes for each table (1,000), SITES how many sites for the check (the same), SEED the seed (1) and MARGIN the margin of
//! all sites in ticks (0). With margin 0 sites and boards are as they were before there was one. TABLES names the tables that are wanted, of those in
//! `TABLES` below, with commas between them: `TABLES=size ./bench`.
//!
//! HOW, which is printed first, says how sites and boards are made.

use dispatch_tests::desk::{self, Answer};
use dispatch_tests::gen::{motion_between, Rng};
use dispatch_tests::literal::{encode, Motion, Site, State, Sweep, MAX_MARGIN};
use dispatch_tests::{plain, pull, worst};
use std::hint::black_box;
use std::time::Instant;

const HOW: &str = "\
Sites:
- grid: 10 by 10 cells with a standing and a rolling state each; motions between neighbouring cells that speed up
  (span 2), roll on (span 1) or slow down (span 2 or 3), 1,000 chosen of all.
- random: 100 cells, 60 in 100 states standing; motions between any two states, span 1 to 8, 1 to 4 sweeps.
- long: 200 cells, as random, with span 10 to 120 and 1 to 16 sweeps.
- corridor: states in a row, standing and rolling in turn; motions to the next few states either way, span 2 to 9.
Boards: held in short runs (1 to 4 ticks), in long runs (5 to 60 ticks), both up to nine in a hundred pairs, or in
few runs (one in a hundred). With a margin there are so many fewer runs that about as many pairs are not free.
Routes of at least 400 ticks start at a tick below 80. Where the goal is nearer, its cell is held from tick 0 up to a
tick of 400 to 900. With a dwell, in half of these the cell is held before that tick only here and there, so that tugs
reach the goal but can't unload.
Routes below 100 ticks start at any tick.
Routes that are refused with 18 start at a free pair, on any of the boards: late, so that H is near; or before tick 80,
with the goal's cell held from the first arrival on; or shut in, with the cells that the start's motions lead to held
until its own is.
Worst sites have 255 cells and 256 states, or 1,000 and 1,001; routes lead from the first state to the last at tick 0:
- zigzag: 1,999 or 3,719 motions of span 1 between two halves of rolling states; on a free board, and with a third held.
- 16 sweeps of 255: 888 or 826 motions of span 255 with 16 sweeps each, of 255 or 256 ticks.
- handovers last: 888 or 826 motions with 16 sweeps each, where the sweeps that hand over come last.
- walk: a light of 980 motions or more, each looked for among many that lead to the same state.
The site's check is an open with no board, which is refused with 7 once the site has passed. It has one kind of site more:
- adjoining: 200 cells, span 12, 14 sweeps of one offset each, the last offset first, so that no sweep hands over alone.
Halls of two sizes have 250 cells, 320 states and 1,000 motions, or four times as many of each; as many motions as that fit
into a file if 4 in 10 stay within a cell. Each cell has a standing state, and 28 in 100 a rolling one too. The other
motions lead to a neighbouring cell of a floor of 10 by 25 or 25 by 40 (grid), or to any other cell (random), span 1 to 4.
Boards and routes are those of at least 400 ticks, dwell 0, with the three kinds of boards in turn.
Programs: plain (src/plain.rs) is made fast, pull (src/pull.rs) is simple. A ratio is the desk's time to that of the
program in the column before.";

/// The times at the dock, in ticks.
const DWELLS: [u16; 2] = [0, 50];

const STATES: usize = 200;
const MOTIONS: usize = 1_000;
const H: usize = 1_000;

fn grid(rng: &mut Rng) -> Site {
    let states: Vec<State> = (0..STATES).map(|i| State { cell: (i / 2) as u16, speed: (i % 2) as u8 }).collect();
    let mut motions = Vec::new();
    for u in 0..100usize {
        let (x, y) = (u % 10, u / 10);
        let next = [(x > 0, u.wrapping_sub(1)), (x < 9, u + 1), (y > 0, u.wrapping_sub(10)), (y < 9, u + 10)];
        for (_, v) in next.into_iter().filter(|n| n.0) {
            let slow = rng.range(2, 3) as u8;
            for (from, to, d) in [(2 * u, 2 * v + 1, 2), (2 * u + 1, 2 * v + 1, 1), (2 * u + 1, 2 * v, slow)] {
                let sweeps = vec![Sweep { cell: u as u16, a: 0, b: 1 }, Sweep { cell: v as u16, a: 1, b: d }];
                motions.push(Motion { from: from as u16, to: to as u16, d, sweeps });
            }
        }
    }
    for i in (1..motions.len()).rev() {
        motions.swap(i, rng.below(i + 1));
    }
    motions.truncate(MOTIONS);
    Site { h: H, c: 100, margin: 0, states, motions, centres: vec![] }
}

fn scattered(rng: &mut Rng, c: usize, span: (usize, usize), sweeps: usize) -> Site {
    let states: Vec<State> = (0..STATES).map(|_| State { cell: rng.below(c) as u16, speed: rng.percent(40) as u8 }).collect();
    let motions = (0..MOTIONS)
        .map(|_| {
            let from = rng.below(STATES);
            let to = (from + rng.range(1, STATES - 1)) % STATES;
            let (d, n) = (rng.range(span.0, span.1), rng.range(1, sweeps));
            motion_between(rng, c, &states, from, to, d, n)
        })
        .collect();
    Site { h: H, c, margin: 0, states, motions, centres: vec![] }
}

/// Each motion leaves its cell offset by offset and takes the next one so; both are used at one offset.
fn adjoining(rng: &mut Rng) -> Site {
    const SPAN: u8 = 12;
    let states: Vec<State> = (0..STATES).map(|i| State { cell: i as u16, speed: 0 }).collect();
    let motions = (0..MOTIONS)
        .map(|k| {
            let from = k % STATES;
            let to = (from + rng.range(1, STATES - 1)) % STATES;
            let both = rng.range(0, SPAN as usize) as u8;
            let leaves = (0..=both).map(|j| Sweep { cell: from as u16, a: j, b: j });
            let takes = (both..=SPAN).map(|j| Sweep { cell: to as u16, a: j, b: j });
            Motion { from: from as u16, to: to as u16, d: SPAN, sweeps: leaves.chain(takes).rev().collect() }
        })
        .collect();
    Site { h: H, c: STATES, margin: 0, states, motions, centres: vec![] }
}

fn corridor(rng: &mut Rng) -> Site {
    let states: Vec<State> = (0..STATES).map(|i| State { cell: (i / 2) as u16, speed: (i % 2) as u8 }).collect();
    let motions = (0..MOTIONS)
        .map(|k| {
            let from = k % STATES;
            let reach = rng.range(1, 3);
            let to = if (rng.percent(70) && from + reach < STATES) || from < reach { from + reach } else { from - reach };
            let (d, n) = (rng.range(2, 9), rng.range(2, 4));
            motion_between(rng, 100, &states, from, to, d, n)
        })
        .collect();
    Site { h: H, c: 100, margin: 0, states, motions, centres: vec![] }
}

/// The floor of a hall, and its states and motions.
#[derive(Clone, Copy)]
struct Scale {
    wide: usize,
    long: usize,
    states: usize,
    motions: usize,
}

const SCALES: [Scale; 2] = [Scale { wide: 10, long: 25, states: 320, motions: 1_000 }, Scale { wide: 25, long: 40, states: 1_280, motions: 4_000 }];

impl Scale {
    fn cells(self) -> usize {
        self.wide * self.long
    }

    /// Two different cells: neighbours on the floor, or any.
    fn two_cells(self, rng: &mut Rng, neighbours: bool) -> (usize, usize) {
        let cell = rng.below(self.cells());
        if !neighbours {
            return (cell, (cell + rng.range(1, self.cells() - 1)) % self.cells());
        }
        let (x, y) = (cell % self.wide, cell / self.wide);
        let next = [(x > 0, cell.wrapping_sub(1)), (x + 1 < self.wide, cell + 1), (y > 0, cell.wrapping_sub(self.wide)), (y + 1 < self.long, cell + self.wide)];
        let there: Vec<usize> = next.into_iter().filter(|next| next.0).map(|next| next.1).collect();
        (cell, rng.pick(&there))
    }

    fn site(self, rng: &mut Rng, neighbours: bool) -> Site {
        let (cells, more) = (self.cells(), self.states - self.cells());
        // State k stands in cell k, and the rolling ones are spread over the floor.
        let rolling = |k: usize| k * cells / more;
        let states: Vec<State> =
            (0..cells).map(|cell| (cell, 0)).chain((0..more).map(|k| (rolling(k), 1))).map(|(cell, speed)| State { cell: cell as u16, speed }).collect();
        let mut here = vec![vec![]; cells];
        states.iter().enumerate().for_each(|(k, state)| here[state.cell as usize].push(k));
        let motions = (0..self.motions).map(|_| {
            let d = rng.range(1, 4);
            if rng.percent(40) {
                let both = &here[rolling(rng.below(more))];
                let first = rng.below(2);
                return motion_between(rng, cells, &states, both[first], both[1 - first], d, 1);
            }
            let (from, to) = self.two_cells(rng, neighbours);
            let (from, to) = (rng.pick(&here[from]), rng.pick(&here[to]));
            motion_between(rng, cells, &states, from, to, d, 2)
        });
        let motions = motions.collect();
        Site { h: H, c: cells, margin: 0, states, motions, centres: vec![] }
    }
}

fn board(rng: &mut Rng, site: &Site, percent: usize, run: (usize, usize)) -> Vec<u8> {
    let mut board = vec![0; site.board_len()];
    let pairs = site.c * (H + 1);
    // Of what a run of the usual length keeps tugs from, so much is held, and the rest is its margin.
    let (held_part, all_parts) = (run.0 + run.1, run.0 + run.1 + 4 * site.margin);
    let mut held = 0;
    while held < pairs * percent * held_part / (100 * all_parts) {
        let (cell, first, len) = (rng.below(site.c), rng.below(H + 1), rng.range(run.0, run.1));
        for byte in board[4 + cell * (H + 1)..][first..(first + len).min(H + 1)].iter_mut().filter(|byte| **byte == 0) {
            *byte = rng.range(100, 254) as u8;
            held += 1;
        }
    }
    board
}

/// Frees runs of a held row that are too short to unload in.
fn leave_gaps(rng: &mut Rng, row: &mut [u8], dwell: u16) {
    let mut at = 0;
    while at < row.len() {
        let end = (at + rng.range(1, dwell as usize)).min(row.len() - 1);
        row[at..end].fill(0);
        at = end + 1;
    }
}

struct Case {
    site: Vec<u8>,
    board: Vec<u8>,
    start: u16,
    tick: u16,
    goal: u16,
    dwell: u16,
}

const SITES: [&str; 5] = ["grid", "random", "long", "corridor", "adjoining"];
const BOARDS: [&str; 3] = ["short runs", "long runs", "few runs"];
const WHYS: [&str; 3] = ["late", "goal held", "shut in"];
const CORRIDOR: usize = 3;

fn site(rng: &mut Rng, kind: usize) -> Site {
    match kind {
        0 => grid(rng),
        1 => scattered(rng, 100, (1, 8), 4),
        2 => scattered(rng, 200, (10, 120), 16),
        CORRIDOR => corridor(rng),
        _ => adjoining(rng),
    }
}

/// The routes of a table.
#[derive(Clone, Copy, PartialEq)]
enum Wanted {
    /// At least 400 ticks from start to arrival.
    Far,
    /// Below 100 ticks.
    Near,
    /// Refused with 18, as H is near.
    Late,
    /// Refused with 18, as the goal's cell is held from the first arrival on.
    GoalHeld,
    /// Refused with 18, as no motion leads out of the start until its cell is held.
    ShutIn,
}

impl Wanted {
    fn fits(self, answer: Answer, tick: usize) -> bool {
        match self {
            Wanted::Far => answer.number == 0 && answer.arrival as usize - tick >= 400,
            Wanted::Near => answer.number == 0 && answer.arrival as usize - tick < 100,
            Wanted::Late | Wanted::GoalHeld | Wanted::ShutIn => answer.number == 18,
        }
    }
}

/// What is lent for writing.
#[derive(PartialEq)]
struct Areas {
    out: Vec<u8>,
    work: Vec<u32>,
}

impl Areas {
    fn new(states: usize) -> Areas {
        Areas { out: vec![0; 18 + 5 * H], work: vec![0; states * (H + 1)] }
    }
}

type Route = fn(&[u8], &[u8], u8, u16, u16, u16, u16, &mut [u8], &mut [u32]) -> Answer;

fn call(route: Route, case: &Case, areas: &mut Areas) -> Answer {
    route(black_box(&case.site), black_box(&case.board), 7, case.start, case.tick, case.goal, case.dwell, &mut areas.out, &mut areas.work)
}

/// A site with a board, of which cases are made.
struct Hall {
    corridor: bool,
    site: Site,
    file: Vec<u8>,
    board: Vec<u8>,
}

impl Hall {
    /// A kind of site, and one of the three kinds of boards.
    fn new(rng: &mut Rng, kind: usize, held: usize, margin: usize) -> Hall {
        let site = site(rng, kind);
        Hall { corridor: kind == CORRIDOR, ..Hall::of(rng, site, held, margin) }
    }

    fn of(rng: &mut Rng, site: Site, held: usize, margin: usize) -> Hall {
        let site = Site { margin, ..site };
        let (percent, run) = [(9, (1, 4)), (9, (5, 60)), (1, (5, 60))][held];
        let board = board(rng, &site, percent, run);
        let file = encode(&site);
        Hall { corridor: false, site, file, board }
    }

    /// Where the ticks of a state's cell lie on the board.
    fn row(&self, state: usize) -> std::ops::Range<usize> {
        let first = 4 + self.site.cell(state) * (H + 1);
        first..first + H + 1
    }

    /// Whether a state's cell is free for a tug at a tick.
    fn free(&self, board: &[u8], state: usize, tick: usize) -> bool {
        board[self.row(state)][self.site.around(tick)].iter().all(|&byte| byte == 0)
    }

    /// A start and a goal. In a corridor they are at its ends, or near each other.
    fn ends(&self, rng: &mut Rng, wanted: Wanted) -> (usize, usize) {
        if !self.corridor {
            let s = self.site.states.len();
            return (rng.below(s), rng.below(s));
        }
        if wanted == Wanted::Near {
            let (start, away) = (rng.below(STATES), rng.range(0, 80));
            return (start, (start + away).saturating_sub(40).min(STATES - 1));
        }
        (rng.below(10), STATES - 2 - 2 * rng.below(5))
    }

    /// The goal's cell is held up to a tick, if need be.
    fn delay(&self, rng: &mut Rng, board: &mut [u8], tick: usize, goal: usize, dwell: u16) {
        if !self.corridor || rng.percent(50) {
            let until = rng.range(tick + 400, 900);
            let row = &mut board[self.row(goal)];
            row[..until].fill(200);
            row[until..].fill(0);
            if dwell > 0 && rng.percent(50) {
                leave_gaps(rng, &mut row[..until], dwell);
            }
        }
    }

    fn hold_goal(&self, board: &mut [u8], start: usize, tick: usize, goal: usize, areas: &mut Areas) {
        let first = call(plain::route, &self.case(board.to_vec(), start, tick, goal, 0), areas);
        if first.number == 0 {
            board[self.row(goal)][first.arrival as usize..].fill(200);
        }
    }

    fn shut_in(&self, rng: &mut Rng, board: &mut [u8], start: usize, tick: usize) {
        let until = tick + rng.range(1, 40);
        board[self.row(start)][until] = 200;
        for motion in self.site.motions.iter().filter(|motion| motion.from as usize == start) {
            board[self.row(motion.to as usize)][tick + 1..until + motion.d as usize].fill(200);
        }
    }

    fn case(&self, board: Vec<u8>, start: usize, tick: usize, goal: usize, dwell: u16) -> Case {
        Case { site: self.file.clone(), board, start: start as u16, tick: tick as u16, goal: goal as u16, dwell }
    }

    /// A case, if the one tried is as it is wanted.
    fn attempt(&self, rng: &mut Rng, wanted: Wanted, dwell: u16, areas: &mut Areas) -> Option<Case> {
        let (start, goal) = self.ends(rng, wanted);
        if !self.site.standing(goal) || self.site.cell(start) == self.site.cell(goal) {
            return None;
        }
        let tick = match wanted {
            Wanted::Near => rng.below(H),
            Wanted::Late => rng.range(H - 100, H),
            _ => rng.below(80),
        };
        let mut board = self.board.clone();
        match wanted {
            Wanted::Near | Wanted::Late => {}
            Wanted::Far => self.delay(rng, &mut board, tick, goal, dwell),
            Wanted::GoalHeld => self.hold_goal(&mut board, start, tick, goal, areas),
            Wanted::ShutIn => self.shut_in(rng, &mut board, start, tick),
        }
        let held = board[4..].iter().filter(|&&byte| byte != 0).count();
        if held * 10 > board.len() - 4 || !self.free(&board, start, tick) {
            return None;
        }
        let case = self.case(board, start, tick, goal, dwell);
        wanted.fits(call(plain::route, &case, areas), tick).then_some(case)
    }
}

/// A case on one of the halls that are made.
fn find(rng: &mut Rng, make: impl Fn(&mut Rng) -> Hall, wanted: Wanted, dwell: u16, areas: &mut Areas) -> Case {
    loop {
        let hall = make(rng);
        for _ in 0..20 {
            if let Some(case) = hall.attempt(rng, wanted, dwell, areas) {
                return case;
            }
        }
    }
}

/// A case on a kind of site and of board.
fn case(rng: &mut Rng, kind: usize, held: usize, wanted: Wanted, dwell: u16, margin: usize, areas: &mut Areas) -> Case {
    find(rng, |rng| Hall::new(rng, kind, held, margin), wanted, dwell, areas)
}

fn worst_case(rng: &mut Rng, kind: usize, scale: worst::Scale, margin: usize) -> Case {
    let (mut site, board) = worst::case(rng, kind, scale);
    site.margin = margin;
    Case { site: encode(&site), board, start: 0, tick: 0, goal: site.states.len() as u16 - 1, dwell: 0 }
}

/// The time of one call, in microseconds, from areas cleared just before.
fn time(route: Route, case: &Case, areas: &mut Areas) -> (f64, Answer) {
    areas.out.fill(0);
    areas.work.fill(0);
    let began = Instant::now();
    let answer = call(route, case, areas);
    (began.elapsed().as_secs_f64() * 1e6, answer)
}

fn median(times: &mut [f64]) -> f64 {
    times.sort_by(f64::total_cmp);
    times[times.len() / 2]
}

fn setting(name: &str, default: u64) -> u64 {
    std::env::var(name).map_or(default, |text| text.parse().unwrap_or_else(|_| panic!("{name} is no number")))
}

/// The desk first.
const PROGRAMS: [Route; 3] = [desk::route, plain::route, pull::route];

/// What the desk and the two programs took, in microseconds.
type Times = [Vec<f64>; 3];

// The middle of three turns counts, as other work disturbs single calls. The desk and the plain program take turns; the pull program comes last, so that these
// two are timed as they were before it was there.
const TWO: [usize; 6] = [0, 1, 0, 1, 0, 1];
const THREE: [usize; 9] = [0, 1, 0, 1, 0, 1, 2, 2, 2];

/// The time of each program on a case, in these turns. The answers and areas must be equal.
fn race(case: &Case, areas: &mut [Areas; 3], turns: &[usize]) -> [f64; 3] {
    let mut times = Times::default();
    let mut answers = [Answer::plain(0); 3];
    for &program in turns {
        let (took, answer) = time(PROGRAMS[program], case, &mut areas[program]);
        times[program].push(took);
        answers[program] = answer;
        let same = program == 0 || (answer == answers[0] && areas[program] == areas[0]);
        assert!(same, "from {} at {} to {}, dwell {}: {answers:?}, or the areas differ", case.start, case.tick, case.goal, case.dwell);
    }
    times.map(|mut turns| if turns.is_empty() { f64::NAN } else { median(&mut turns) })
}

fn line(name: &str, mut times: Times) {
    let routes = times[0].len();
    let [by_desk, by_plain, by_pull] = times.each_mut().map(|times| median(times));
    let (to_plain, to_pull) = (by_desk / by_plain, by_desk / by_pull);
    println!("{name:22} {routes:>6} {by_desk:>9.0} {by_plain:>9.0} {to_plain:>7.2} {by_pull:>9.0} {to_pull:>7.3}");
}

/// A table: the routes of all kinds in turn, each one timed and compared, then a line for each kind and, where it says something, one for all.
fn measure(title: &str, names: &[String], routes: usize, areas: &mut [Areas; 3], mut case: impl FnMut(usize, &mut Areas) -> Case, all: bool) {
    let mut times = vec![Times::default(); names.len()];
    for i in 0..routes {
        let kind = i % names.len();
        let took = race(&case(kind, &mut areas[0]), areas, &THREE);
        times[kind].iter_mut().zip(took).for_each(|(times, took)| times.push(took));
    }
    println!("\n{title}\n{:22} {:>6} {:>9} {:>9} {:>7} {:>9} {:>7}", "site", "routes", "desk", "plain", "ratio", "pull", "ratio");
    let sum: Times = std::array::from_fn(|program| times.iter().flat_map(|times| times[program].clone()).collect());
    for (name, times) in names.iter().zip(times).filter(|(_, times)| !times[0].is_empty()) {
        line(name, times);
    }
    if all {
        line("all", sum);
    }
}

/// The first four sites, each in three ways.
fn names(ways: [&str; 3]) -> Vec<String> {
    SITES[..4].iter().flat_map(|site| ways.map(|way| format!("{site}, {way}"))).collect()
}

/// The tables of routes that are granted, one for every dwell.
fn measure_granted(title: &str, wanted: Wanted, routes: usize, seed: u64, margin: usize) {
    let mut areas = [(); 3].map(|()| Areas::new(STATES));
    for dwell in DWELLS {
        let mut rng = Rng::new(seed);
        let case = |kind, areas: &mut Areas| case(&mut rng, kind / 3, kind % 3, wanted, dwell, margin, areas);
        measure(&format!("{title}, dwell {dwell}"), &names(BOARDS), routes, &mut areas, case, true);
    }
}

/// The tables of routes that are refused, one for every dwell.
fn measure_refused(routes: usize, seed: u64, margin: usize) {
    let mut areas = [(); 3].map(|()| Areas::new(STATES));
    for dwell in DWELLS {
        let mut rng = Rng::new(seed);
        let case = |kind, areas: &mut Areas| {
            let held = rng.below(BOARDS.len());
            case(&mut rng, kind / 3, held, [Wanted::Late, Wanted::GoalHeld, Wanted::ShutIn][kind % 3], dwell, margin, areas)
        };
        measure(&format!("refused with 18, dwell {dwell}"), &names(WHYS), routes, &mut areas, case, true);
    }
}

/// The worst sites, a table for each size of them.
fn measure_worst(routes: usize, seed: u64, margin: usize) {
    for scale in worst::SCALES {
        let mut rng = Rng::new(seed);
        let mut areas = [(); 3].map(|()| Areas::new(scale.cells + 1));
        let case = |kind, _: &mut Areas| worst_case(&mut rng, kind, scale, margin);
        measure(&format!("worst sites of {} cells", scale.cells), &worst::NAMES.map(str::to_string), routes, &mut areas, case, false);
    }
}

/// Halls of two sizes: for each kind of site a line for each size, and one that says how many times as long the larger ones take.
fn measure_sizes(routes: usize, seed: u64, margin: usize) {
    println!(
        "\nhalls of two sizes, at least 400 ticks\n{:22} {:>6} {:>6} {:>9} {:>9} {:>9} {:>7}",
        "site", "routes", "file", "board", "desk", "plain", "ratio"
    );
    for (name, neighbours) in [("grid", true), ("random", false)] {
        let [small, large] = SCALES.map(|scale| {
            let mut rng = Rng::new(seed);
            let mut areas = [(); 3].map(|()| Areas::new(scale.states));
            let (mut times, mut file, mut board) = (Times::default(), vec![], 0);
            for i in 0..routes.div_ceil(4) {
                let make = |rng: &mut Rng| {
                    let site = scale.site(rng, neighbours);
                    Hall::of(rng, site, i % BOARDS.len(), margin)
                };
                let case = find(&mut rng, make, Wanted::Far, 0, &mut areas[0]);
                let took = race(&case, &mut areas, &TWO);
                times.iter_mut().zip(took).for_each(|(times, took)| times.push(took));
                file.push(case.site.len() as f64);
                board = case.board.len();
            }
            let (routes, file, [by_desk, by_plain, _]) = (times[0].len(), median(&mut file), times.each_mut().map(|times| median(times)));
            let name = format!("{name}, {} cells", scale.cells());
            println!("{name:22} {routes:>6} {file:>6.0} {board:>9} {by_desk:>9.0} {by_plain:>9.0} {:>7.2}", by_desk / by_plain);
            [by_desk, by_plain]
        });
        println!("{:22} {:>6} {:>6} {:>9} {:>9.2} {:>9.2}", "  times as long", "", "", "", large[0] / small[0], large[1] / small[1]);
    }
}

type Open = fn(&[u8], &mut [u8]) -> Answer;

/// The time of one site's check, in microseconds.
fn check_time(open: Open, file: &[u8]) -> f64 {
    let began = Instant::now();
    let answer = open(black_box(file), &mut []);
    let took = began.elapsed().as_secs_f64() * 1e6;
    assert!(answer == Answer::plain(7), "a site of the bench is refused: {answer:?}");
    took
}

/// The site's check: a line for each kind of site.
fn measure_checks(sites: usize, seed: u64) {
    let mut rng = Rng::new(seed);
    println!("\nthe site's check\n{:22} {:>6} {:>9} {:>9} {:>7}", "site", "sites", "desk", "plain", "ratio");
    for (kind, name) in SITES.into_iter().enumerate() {
        let files: Vec<Vec<u8>> = (0..sites.div_ceil(SITES.len())).map(|_| encode(&site(&mut rng, kind))).collect();
        let (mut desk_times, mut plain_times) = (vec![f64::INFINITY; files.len()], vec![f64::INFINITY; files.len()]);
        // The shortest of twenty turns counts, as a check is so short that other work disturbs most of them. Each turn goes over all sites, so
        // that the processor does not learn one of them by heart.
        for _ in 0..20 {
            for (i, file) in files.iter().enumerate() {
                desk_times[i] = desk_times[i].min(check_time(desk::open, file));
                plain_times[i] = plain_times[i].min(check_time(plain::open, file));
            }
        }
        let (by_desk, by_plain) = (median(&mut desk_times), median(&mut plain_times));
        println!("{name:22} {:>6} {by_desk:>9.1} {by_plain:>9.1} {:>7.2}", files.len(), by_desk / by_plain);
    }
}

/// The tables, as TABLES names them.
const TABLES: [&str; 6] = ["far", "near", "refused", "worst", "check", "size"];

/// Those that are wanted: all of them, if the environment names none.
fn wanted_tables() -> Vec<String> {
    let named = std::env::var("TABLES").unwrap_or(TABLES.join(","));
    let named: Vec<String> = named.split(',').map(|name| name.trim().to_string()).collect();
    let unknown = named.iter().find(|name| !TABLES.contains(&name.as_str()));
    assert!(unknown.is_none(), "TABLES names {}; the tables are {}", unknown.unwrap(), TABLES.join(", "));
    named
}

fn main() {
    let (routes, sites, seed) = (setting("ROUTES", 1_000) as usize, setting("SITES", 1_000) as usize, setting("SEED", 1));
    let margin = setting("MARGIN", 0) as usize;
    assert!(margin <= MAX_MARGIN, "MARGIN is above {MAX_MARGIN}");
    let tables = wanted_tables();
    println!("{HOW}\n\n{routes} routes for each table, {sites} sites, seed {seed}, margin {margin}; microseconds for the whole call, checks and zeroed words included, median");
    for table in TABLES.into_iter().filter(|table| tables.iter().any(|wanted| wanted == table)) {
        match table {
            "check" if sites > 0 => measure_checks(sites, seed),
            _ if routes == 0 => {}
            "far" => measure_granted("at least 400 ticks", Wanted::Far, routes, seed, margin),
            "near" => measure_granted("below 100 ticks", Wanted::Near, routes, seed, margin),
            "refused" => measure_refused(routes, seed, margin),
            "worst" => measure_worst(routes, seed, margin),
            "size" => measure_sizes(routes, seed, margin),
            _ => {}
        }
    }
}
