//! Every area of every call between two pages that nothing may touch: first up to the second page, then from the first page on. What a call only reads lies
//! in pages that can't be written. So a read or write outside of what is lent, or a write to what is lent for reading, ends the process. Answers and what
//! is left are compared with the plain program's, so that the calls do their work. A program in Rust keeps to its slices, so this is for the archive alone.

#![cfg(all(target_os = "linux", not(feature = "standin")))]

use dispatch_tests::desk::{self, Answer};
use dispatch_tests::gen::{self, Call, Caller, Rng, Size, CALLS};
use dispatch_tests::guarded::{Guarded, Side};
use dispatch_tests::lent::{shift, Area, Lent, Values};
use dispatch_tests::literal::{encode, Site};
use dispatch_tests::{four, plain, run};
use std::collections::BTreeMap;
use std::os::unix::process::ExitStatusExt;
use std::process::{Command, ExitStatus, Stdio};

/// Makes a call with the plain program, then with the desk on guarded areas, and compares. Gives the answer and what is left.
fn compare(rng: &mut Rng, file: &[u8], board: &[u8], call: &Call) -> (Answer, Values) {
    let before = Values::new(rng, file, board, call);
    let mut wanted = before.clone();
    let expected = run!(plain, call, &mut wanted);
    let writes_board = matches!(call, Call::Open | Call::Post { .. } | Call::Close { .. } | Call::Withdraw { .. });
    for side in [Side::Ends, Side::Begins] {
        let mut lent = Lent {
            site: Guarded::new(&before.site, side, false),
            board: Guarded::new(&before.board, side, writes_board),
            light: Guarded::new(&before.light, side, false),
            bytes: Guarded::new(&before.bytes, side, true),
            numbers: Guarded::new(&before.numbers, side, true),
            words: Guarded::new(&before.words, side, true),
            drawn: [0; 3],
        };
        let answer = run!(desk, call, &mut lent);
        assert_eq!(answer, expected, "{side:?}, {call:?}");
        assert_eq!(lent.differs(&wanted), None, "{side:?}, {call:?}");
    }
    (expected, wanted)
}

/// A site file: mostly a good one, else with one fault or several, or any bytes.
fn any_file(rng: &mut Rng, site: &Site) -> Vec<u8> {
    match rng.below(8) {
        0 => {
            let n = rng.below(100);
            rng.bytes(n)
        }
        1 => {
            let mut file = encode(site);
            gen::scratch(rng, &mut file);
            file
        }
        2 | 3 => {
            // A file above the limit is costly, so it is rarer.
            let faults: Vec<u8> = (0..rng.range(1, 2)).map(|_| if rng.percent(10) { 1 } else { rng.range(2, 6) as u8 }).collect();
            gen::damaged(rng, site, &faults)
        }
        _ => encode(site),
    }
}

#[test]
fn seeded_calls() {
    let mut rng = Rng::new(1);
    let mut met = BTreeMap::new();
    for _ in 0..5_000 {
        let size = rng.pick(&[Size::Tiny, Size::Row, Size::Row, Size::Small, Size::Small, Size::Long, Size::Middle]);
        let site = gen::site(&mut rng, size);
        let file = any_file(&mut rng, &site);
        let caller = Caller { site: &site, file: &encode(&site), lights: vec![] };
        let mut board = gen::board(&mut rng, &site);
        if rng.percent(5) {
            let n = rng.pick(&[0, 3, 4, board.len() - 1, board.len() + 1]);
            board.resize(n, 0);
        }
        for _ in 0..8 {
            let call = caller.any(&mut rng, &board);
            let (answer, left) = compare(&mut rng, &file, &board, &call);
            *met.entry((call.kind(), answer.number)).or_insert(0) += 1;
            if !matches!(call, Call::Open) {
                board = left.board;
            }
        }
        for _ in 0..4 {
            let draw = caller.draw(&mut rng, &board);
            let (answer, _) = compare(&mut rng, &file, &board, &draw);
            *met.entry((draw.kind(), answer.number)).or_insert(0) += 1;
        }
        let (wrong, draw) = (gen::damaged_centres(&mut rng, &site, &[4]), caller.draw(&mut rng, &board));
        compare(&mut rng, &wrong, &board, &Call::Open);
        compare(&mut rng, &wrong, &board, &draw);
    }
    for (kind, number) in gen::possible() {
        let times = met.get(&(kind, number)).copied().unwrap_or(0);
        assert!(times >= if number == 0 { 200 } else { 1 }, "{} answers {number} only {times} times", CALLS[kind]);
    }
}

#[test]
fn four_in_line() {
    for margin in [0, 2] {
        shift(&mut Rng::new(1), &four::with_margin(margin), compare);
        shift(&mut Rng::new(1), &four::with_centres(margin), compare);
    }
}

#[test]
fn largest_site() {
    let mut rng = Rng::new(1);
    for with_centres in [false, true] {
        let site = gen::largest(&mut rng, 1, with_centres);
        assert_eq!(encode(&site).len(), 65_534);
        shift(&mut rng, &site, compare);
        let file = encode(&site);
        for _ in 0..60 {
            let board = gen::board(&mut rng, &site);
            let caller = Caller { site: &site, file: &file, lights: vec![] };
            let (call, draw) = (caller.any(&mut rng, &board), caller.draw(&mut rng, &board));
            compare(&mut rng, &file, &board, &call);
            compare(&mut rng, &file, &board, &draw);
        }
    }
}

/// Each area of each call at every length below the needed one, the others whole: what is missing is never looked for. On the worked hall, and on the
/// one with centres.
#[test]
fn every_cut() {
    for file in [four::bytes(), four::drawn_bytes()] {
        cuts(&file);
    }
}

fn cuts(file: &[u8]) {
    let mut rng = Rng::new(1);
    let (light, mut board) = (four::hex(four::B_LIGHT), vec![0; 56]);
    assert_eq!(plain::close(file, &mut board, 200, 3, 0, 8), Answer::plain(0));
    let interval = |out| Call::Interval { cell: 3, out };
    let route = |out, work| Call::Route { tug: 7, start: 0, tick: 0, goal: 4, dwell: 2, out, work };
    let lights = |n| [Call::Audit { light: light[..n].to_vec() }, Call::Post { light: light[..n].to_vec() }];
    let others = [Call::Open, interval(14), route(78, 65), Call::Close { holder: 201, cell: 0, first: 0, last: 12 }, Call::Withdraw { holder: 200 }];
    for call in others.into_iter().chain(lights(light.len())) {
        assert_eq!(compare(&mut rng, file, &board, &call).0.number, 0, "{call:?}");
        for n in 0..file.len() {
            compare(&mut rng, &file[..n], &board, &call);
        }
        for n in 0..board.len() {
            assert_eq!(compare(&mut rng, file, &board[..n], &call).0.number, 7, "{n} bytes of the board, {call:?}");
        }
    }
    for call in (0..light.len()).flat_map(lights) {
        assert_ne!(compare(&mut rng, file, &board, &call).0.number, 0, "{call:?}");
    }
    for call in (0..14).map(interval).chain((0..78).map(|n| route(n, 65))).chain((0..65).map(|n| route(78, n))) {
        assert_eq!(compare(&mut rng, file, &board, &call).0.number, 14, "{call:?}");
    }
    // A draw of each step, of one behind the last, and of a frame that there is not.
    let drawn = if file.len() == 144 { 0 } else { 20 };
    for (step, frame, number) in (0..5).map(|step| (step, 7, drawn)).chain([(0, 17, 20)]) {
        let draw = |n: usize| Call::Draw { light: light[..n].to_vec(), step, frame };
        assert_eq!(compare(&mut rng, file, &board, &draw(light.len())).0.number, number, "step {step}");
        for n in 0..file.len() {
            compare(&mut rng, &file[..n], &board, &draw(light.len()));
        }
        for n in 0..light.len() {
            compare(&mut rng, file, &board, &draw(n));
        }
    }
}

/// If this variable is set, the test below does what it names. So it starts itself again, to see how the process ends.
const TOUCH: &str = "GUARDS_TOUCH";

/// Touches an area of 100 bytes, or opens a board, which may be one byte shorter than its length says. Most of this is wrong, and meant to be.
fn touch(what: &str) {
    let area = |side, writable| Guarded::new(&[1u8; 100], side, writable);
    let read = |area: Guarded<u8>, at: isize| {
        let byte = unsafe { area.all().as_ptr().offset(at).read_volatile() };
        assert_eq!(byte, 1);
    };
    let write = |area: Guarded<u8>, at: isize| unsafe { area.all().as_ptr().offset(at).cast_mut().write_volatile(1) };
    match what {
        "read the last byte" => read(area(Side::Ends, false), 99),
        "read behind" => read(area(Side::Ends, false), 100),
        "read the first byte" => read(area(Side::Begins, false), 0),
        "read before" => read(area(Side::Begins, false), -1),
        "write the last byte" => write(area(Side::Ends, true), 99),
        "write behind" => write(area(Side::Ends, true), 100),
        "write before" => write(area(Side::Begins, true), -1),
        "write what is read" => write(area(Side::Ends, false), 50),
        "open" | "open a shorter board" => {
            let mut board = Guarded::new(&vec![9u8; if what == "open" { 56 } else { 55 }], Side::Ends, true);
            let longer = unsafe { std::slice::from_raw_parts_mut(board.all_mut().as_mut_ptr(), 56) };
            assert_eq!(desk::open(&four::bytes(), longer), Answer::plain(0));
        }
        _ => panic!("{what} is nothing to do"),
    }
}

/// How the process ends that does this.
fn end_of(what: &str) -> ExitStatus {
    let this = std::env::current_exe().unwrap();
    let mut child = Command::new(this);
    child.args(["--exact", "guards_hold"]).env(TOUCH, what).stdout(Stdio::null()).stderr(Stdio::null());
    child.status().unwrap()
}

#[test]
fn guards_hold() {
    if let Ok(what) = std::env::var(TOUCH) {
        return touch(&what);
    }
    for what in ["read the last byte", "read the first byte", "write the last byte", "open"] {
        assert!(end_of(what).success(), "{what}");
    }
    for what in ["read behind", "read before", "write behind", "write before", "write what is read", "open a shorter board"] {
        // 11 is a touch of memory that is not there.
        assert_eq!(end_of(what).signal(), Some(11), "{what}");
    }
}
