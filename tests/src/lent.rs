//! What is lent to one call, in areas of any kind; the macro `run`, which makes the call with one of the programs; and a list of accepted calls.

use crate::desk::Answer;
use crate::gen::{Call, Rng};
use crate::literal::{encode, Site};
use crate::plain;

/// Elements that lie somewhere in memory.
pub trait Area<T> {
    fn all(&self) -> &[T];
    fn all_mut(&mut self) -> &mut [T];
}

impl<T> Area<T> for Vec<T> {
    fn all(&self) -> &[T] {
        self
    }

    fn all_mut(&mut self) -> &mut [T] {
        self
    }
}

#[derive(Clone, PartialEq, Eq, Debug)]
pub struct Lent<B, N, W> {
    pub site: B,
    pub board: B,
    pub light: B,
    /// The output area of a route.
    pub bytes: B,
    /// The output area of an interval call.
    pub numbers: N,
    pub words: W,
    /// The floats that a draw gives, as bits; 0 before it.
    pub drawn: [u32; 3],
}

/// Areas without a place of their own.
pub type Values = Lent<Vec<u8>, Vec<u16>, Vec<u32>>;

impl Values {
    /// Areas of the lengths that the call gives. What it writes holds anything before.
    pub fn new(rng: &mut Rng, site: &[u8], board: &[u8], call: &Call) -> Values {
        let (mut light, mut bytes, mut numbers, mut words): (&[u8], _, _, _) = (&[], 0, 0, 0);
        match call {
            Call::Interval { out, .. } => numbers = *out,
            Call::Route { out, work, .. } => (bytes, words) = (*out, *work),
            Call::Audit { light: given } | Call::Post { light: given } | Call::Draw { light: given, .. } => light = given,
            Call::Open | Call::Close { .. } | Call::Withdraw { .. } => {}
        }
        Values {
            site: site.to_vec(),
            board: board.to_vec(),
            light: light.to_vec(),
            bytes: rng.bytes(bytes),
            numbers: (0..numbers).map(|_| rng.draw() as u16).collect(),
            words: (0..words).map(|_| rng.draw() as u32).collect(),
            drawn: [0; 3],
        }
    }
}

impl<B: Area<u8>, N: Area<u16>, W: Area<u32>> Lent<B, N, W> {
    /// The first area whose values are others than these, if there is one.
    pub fn differs(&self, wanted: &Values) -> Option<&'static str> {
        let same = [
            ("site", self.site.all() == wanted.site),
            ("board", self.board.all() == wanted.board),
            ("light", self.light.all() == wanted.light),
            ("output bytes", self.bytes.all() == wanted.bytes),
            ("interval numbers", self.numbers.all() == wanted.numbers),
            ("working words", self.words.all() == wanted.words),
            ("floats of a draw", self.drawn == wanted.drawn),
        ];
        same.iter().find(|area| !area.1).map(|area| area.0)
    }
}

/// A trip of three steps or more on a free board: start and goal.
fn trip(site: &Site, file: &[u8]) -> (u16, u16) {
    let s = site.states.len() as u16;
    let (mut out, mut work) = (vec![0; site.output_len()], vec![0; site.states.len() * (site.h + 1)]);
    let board = vec![0; site.board_len()];
    let mut trips = (0..s).flat_map(|start| (0..s).map(move |goal| (start, goal)));
    let several = trips.find(|&(start, goal)| plain::route(file, &board, 7, start, 0, goal, 2, &mut out, &mut work).value >= 33);
    several.expect("no trip has three steps")
}

/// Each call accepted once, from a board that holds anything, and a route that is refused with 18; a draw is accepted on a site with centres alone. `make`
/// makes a call on a site file and a board, and gives the answer and what is left. Each call gets the board that the one before left.
pub fn shift(rng: &mut Rng, site: &Site, make: impl Fn(&mut Rng, &[u8], &[u8], &Call) -> (Answer, Values)) {
    let (file, h) = (encode(site), site.h as u16);
    let (start, goal) = trip(site, &file);
    let (cell, out, work) = (site.cell(start as usize) as u16, site.output_len(), site.states.len() * (site.h + 1));
    let mut board = rng.bytes(site.board_len());
    let mut step = |call: Call, number: u8| {
        let (answer, mut left) = make(rng, &file, &board, &call);
        assert_eq!(answer.number, number, "{call:?}");
        board = left.board;
        left.bytes.truncate(answer.value as usize);
        left.bytes
    };
    step(Call::Open, 0);
    let light = step(Call::Route { tug: 7, start, tick: 0, goal, dwell: 2, out, work }, 0);
    step(Call::Audit { light: light.clone() }, 0);
    step(Call::Post { light: light.clone() }, 0);
    let number = if site.centres.is_empty() { 20 } else { 0 };
    for (k, frame) in [(0, 0), (1, 5), (2, 16), (65_535, 7)] {
        step(Call::Draw { light: light.clone(), step: k, frame }, number);
    }
    step(Call::Draw { light, step: 0, frame: 17 }, 20);
    step(Call::Close { holder: 200, cell, first: h, last: h }, 0);
    step(Call::Interval { cell, out: site.h + 2 }, 0);
    step(Call::Route { tug: 8, start, tick: h, goal, dwell: 0, out, work }, 18);
    step(Call::Withdraw { holder: 7 }, 0);
}

/// `run!(program, call, lent)`: the program is a module with the desk's calls. An area that the call only reads is taken for reading only.
#[macro_export]
macro_rules! run {
    ($program:ident, $call:expr, $lent:expr) => {{
        use $crate::gen::Call;
        use $crate::lent::Area;
        let lent = $lent;
        match *$call {
            Call::Open => $program::open(lent.site.all(), lent.board.all_mut()),
            Call::Interval { cell, .. } => $program::interval(lent.site.all(), lent.board.all(), cell, lent.numbers.all_mut()),
            Call::Route { tug, start, tick, goal, dwell, .. } => {
                let (bytes, words) = (lent.bytes.all_mut(), lent.words.all_mut());
                $program::route(lent.site.all(), lent.board.all(), tug, start, tick, goal, dwell, bytes, words)
            }
            Call::Audit { .. } => $program::audit(lent.site.all(), lent.board.all(), lent.light.all()),
            Call::Post { .. } => $program::post(lent.site.all(), lent.board.all_mut(), lent.light.all()),
            Call::Close { holder, cell, first, last } => $program::close(lent.site.all(), lent.board.all_mut(), holder, cell, first, last),
            Call::Withdraw { holder } => $program::withdraw(lent.site.all(), lent.board.all_mut(), holder),
            Call::Draw { step, frame, .. } => {
                let drawn = $program::draw(lent.site.all(), lent.light.all(), step, frame);
                lent.drawn = drawn.bits();
                drawn.answer()
            }
        }
    }};
}
