//! Areas at every address that include/dispatch.h allows: bytes anywhere, 16-bit and 32-bit numbers at each place that is aligned for them. Answers and what
//! is left are those of areas at multiples of 64, and nothing around an area changes. Slices in Rust can lie anywhere, so this is for the archive alone.

#![cfg(not(feature = "standin"))]

use dispatch_tests::desk::{self, Answer};
use dispatch_tests::gen::{self, Call, Caller, Rng, Size, CALLS};
use dispatch_tests::lent::{shift, Area, Lent, Values};
use dispatch_tests::literal::{encode, Site};
use dispatch_tests::{four, plain, run};

/// Places are told apart up to a line of the processor's cache.
const LINE: usize = 64;

/// What lies around an area.
const AROUND: u8 = 0xa5;

/// An area at a chosen address modulo 64, with at least 64 bytes on either side of it.
struct Placed<T> {
    memory: Vec<T>,
    first: usize,
    len: usize,
}

impl<T: Copy + PartialEq + From<u8>> Placed<T> {
    fn new(values: &[T], place: usize) -> Placed<T> {
        let size = size_of::<T>();
        let line = LINE / size;
        let mut memory = vec![T::from(AROUND); values.len() + 3 * line];
        let first = line + (place + LINE - memory.as_ptr() as usize % LINE) % LINE / size;
        memory[first..first + values.len()].copy_from_slice(values);
        assert_eq!(memory[first..].as_ptr() as usize % LINE, place);
        Placed { memory, first, len: values.len() }
    }

    fn alone(&self) -> bool {
        let (before, rest) = self.memory.split_at(self.first);
        before.iter().chain(&rest[self.len..]).all(|&value| value == T::from(AROUND))
    }
}

impl<T> Area<T> for Placed<T> {
    fn all(&self) -> &[T] {
        &self.memory[self.first..][..self.len]
    }

    fn all_mut(&mut self) -> &mut [T] {
        &mut self.memory[self.first..][..self.len]
    }
}

/// The places of site, board, light, output bytes, interval numbers and working words.
type Places = [usize; 6];

/// How far apart the places of each of these are.
const STEPS: Places = [1, 1, 1, 1, 2, 4];

/// Makes a call with its areas at these places, and compares with what it should answer and leave.
fn check(call: &Call, places: Places, before: &Values, wanted: (Answer, &Values)) {
    let mut lent = Lent {
        site: Placed::new(&before.site, places[0]),
        board: Placed::new(&before.board, places[1]),
        light: Placed::new(&before.light, places[2]),
        bytes: Placed::new(&before.bytes, places[3]),
        numbers: Placed::new(&before.numbers, places[4]),
        words: Placed::new(&before.words, places[5]),
        drawn: [0; 3],
    };
    let answer = run!(desk, call, &mut lent);
    let place = || format!("{} with its areas at {places:?} modulo {LINE}", CALLS[call.kind()]);
    assert_eq!(answer, wanted.0, "{}", place());
    assert_eq!(lent.differs(wanted.1), None, "{}", place());
    let bytes = [&lent.site, &lent.board, &lent.light, &lent.bytes].iter().all(|area| area.alone());
    assert!(bytes && lent.numbers.alone() && lent.words.alone(), "{}: something beside an area changed", place());
}

/// Which areas a call is lent.
fn areas(call: &Call) -> &'static [usize] {
    match call {
        Call::Open | Call::Close { .. } | Call::Withdraw { .. } => &[0, 1],
        Call::Interval { .. } => &[0, 1, 4],
        Call::Route { .. } => &[0, 1, 3, 5],
        Call::Audit { .. } | Call::Post { .. } => &[0, 1, 2],
        Call::Draw { .. } => &[0, 2],
    }
}

/// The call with all areas at multiples of 64, which is right by the plain program; then each area in turn at each of its places; then all at once.
fn everywhere(rng: &mut Rng, file: &[u8], board: &[u8], call: &Call) -> (Answer, Values) {
    let before = Values::new(rng, file, board, call);
    let mut left = before.clone();
    let answer = run!(plain, call, &mut left);
    check(call, [0; 6], &before, (answer, &left));
    for &area in areas(call) {
        for place in (0..LINE).step_by(STEPS[area]) {
            let mut places = [0; 6];
            places[area] = place;
            check(call, places, &before, (answer, &left));
        }
    }
    for _ in 0..LINE {
        let places = STEPS.map(|step| rng.below(LINE / step) * step);
        check(call, places, &before, (answer, &left));
    }
    (answer, left)
}

/// Seeded calls on boards with any bytes.
fn any_calls(site: &Site, calls: usize) {
    let mut rng = Rng::new(2);
    let file = encode(site);
    for _ in 0..calls {
        let board = gen::board(&mut rng, site);
        let caller = Caller { site, file: &file, lights: vec![] };
        let (call, draw) = (caller.any(&mut rng, &board), caller.draw(&mut rng, &board));
        everywhere(&mut rng, &file, &board, &call);
        everywhere(&mut rng, &file, &board, &draw);
    }
}

#[test]
fn four_in_line() {
    for site in [four::with_margin(0), four::with_margin(2), four::with_centres(0)] {
        shift(&mut Rng::new(1), &site, everywhere);
        any_calls(&site, 200);
    }
}

#[test]
fn large_site() {
    let without = Site { centres: vec![], ..gen::site(&mut Rng::new(1), Size::Large) };
    for site in [without, gen::largest(&mut Rng::new(1), 0, true)] {
        shift(&mut Rng::new(1), &site, everywhere);
        any_calls(&site, 40);
    }
}
