//! The worked cases A to O of 'Four in line' of docs/FORMATS.md, which have dwell 0 and margin 0, and cases of the requests, with the desk's calls;
//! routes also with the plain program's.

use dispatch_tests::desk::{self, Answer};
use dispatch_tests::literal::{encode, with_head, Light, Motion, Site, State, Step, Sweep};
use dispatch_tests::{four, plain};

const W: fn(u16) -> Step = Step::Wait;
const M: fn(u16) -> Step = Step::Move;

/// A board of the worked site, after closures of (cell, first, last).
fn board(closures: &[(u16, u16, u16)]) -> Vec<u8> {
    let site = four::bytes();
    let mut board = vec![9; 4 + 4 * 13];
    assert_eq!(desk::open(&site, &mut board), Answer::plain(0));
    assert!(board.iter().all(|&byte| byte == 0));
    for (i, &(cell, first, last)) in closures.iter().enumerate() {
        assert_eq!(desk::close(&site, &mut board, 200 + i as u8, cell, first, last), Answer::plain(0));
    }
    assert_eq!(board[..4], (closures.len() as u32).to_be_bytes());
    board
}

fn route_on(site: &Site, board: &[u8], start: u16, tick: u16, goal: u16, dwell: u16) -> (Answer, Vec<u8>) {
    route_of(7, site, board, start, tick, goal, dwell)
}

/// The route's answer and light, the desk's and the plain program's compared, with the areas around it.
fn route_of(tug: u8, site: &Site, board: &[u8], start: u16, tick: u16, goal: u16, dwell: u16) -> (Answer, Vec<u8>) {
    let file = encode(site);
    let words = site.states.len() * (site.h + 1);
    let (out, work) = (vec![0xa5; 18 + 5 * site.h + 3], vec![7; words + 2]);
    let run = |call: fn(&[u8], &[u8], u8, u16, u16, u16, u16, &mut [u8], &mut [u32]) -> Answer| {
        let (mut out, mut work) = (out.clone(), work.clone());
        let answer = call(&file, board, tug, start, tick, goal, dwell, &mut out, &mut work);
        (answer, out, work)
    };
    let got = run(desk::route);
    assert_eq!(got, run(plain::route));
    let (answer, out, work) = got;
    let len = answer.value as usize;
    assert!(out[len..].iter().all(|&byte| byte == 0xa5));
    let zeroed = if answer.number == 0 || answer.number == 18 { words } else { 0 };
    assert!(work[..zeroed].iter().all(|&word| word == 0) && work[zeroed..].iter().all(|&word| word == 7));
    (answer, out[..len].to_vec())
}

fn route(board: &[u8], start: u16, tick: u16, goal: u16, dwell: u16) -> (Answer, Vec<u8>) {
    route_on(&four::site(), board, start, tick, goal, dwell)
}

/// The light of a granted route to state 4, which has these steps and passes the audit.
fn unloaded(board: &[u8], start: u16, tick: u16, dwell: u16, steps: &[Step], arrival: u16) -> Vec<u8> {
    let (answer, light) = route(board, start, tick, 4, dwell);
    let edition = u32::from_be_bytes(board[..4].try_into().unwrap());
    let wanted = Light { edition, tug: 7, start, tick, goal: 4, arrival, dwell, steps: steps.to_vec() };
    assert_eq!(Light::read(&light), Some(wanted));
    assert_eq!(answer, Answer { number: 0, value: light.len() as u32, arrival: arrival as u32 });
    assert_eq!(desk::audit(&four::bytes(), board, &light), Answer::plain(0));
    light
}

fn granted(board: &[u8], start: u16, tick: u16, steps: &[Step], arrival: u16) -> Vec<u8> {
    unloaded(board, start, tick, 0, steps, arrival)
}

/// A route to a state that is refused with a number.
fn turned_down(board: &[u8], start: u16, tick: u16, goal: u16, dwell: u16, number: u8) {
    assert_eq!(route(board, start, tick, goal, dwell), (Answer::plain(number), vec![]));
}

fn refused(board: &[u8], start: u16, tick: u16, number: u8) {
    turned_down(board, start, tick, 4, 0, number);
}

#[test]
fn file_has_116_bytes() {
    assert_eq!(four::bytes().len(), 116);
}

#[test]
fn a_free_board() {
    granted(&board(&[]), 0, 0, &[M(0), M(1), M(2)], 5);
}

#[test]
fn b_late_departure() {
    let light = granted(&board(&[(3, 0, 8)]), 0, 0, &[W(5), M(0), M(1), M(2)], 10);
    assert_eq!(light, four::hex(four::B_LIGHT));
}

#[test]
fn c_earliest_arrival_is_not_enough() {
    granted(&board(&[(3, 0, 8), (1, 4, 4)]), 0, 0, &[W(5), M(0), M(1), M(2)], 10);
}

#[test]
fn d_wait_on_the_way() {
    granted(&board(&[(3, 0, 8), (0, 5, 12)]), 0, 0, &[M(0), M(3), W(2), M(4), M(2)], 10);
}

#[test]
fn e_arrival_at_the_horizon() {
    assert_eq!(route(&board(&[(3, 0, 10)]), 0, 0, 4, 0).0.arrival, 12);
    assert_eq!(route(&board(&[(3, 0, 10)]), 0, 0, 4, 0).0.number, 0);
}

#[test]
fn f_no_plan() {
    refused(&board(&[(3, 0, 11)]), 0, 0, 18);
}

#[test]
fn g_start_held() {
    refused(&board(&[(0, 0, 0)]), 0, 0, 18);
}

#[test]
fn h_no_steps() {
    granted(&board(&[]), 4, 12, &[], 12);
}

#[test]
fn i_no_waiting_while_rolling() {
    granted(&board(&[(2, 4, 4)]), 1, 3, &[M(3), M(4), M(2)], 9);
}

#[test]
fn j_start_tick_at_and_past_the_horizon() {
    refused(&board(&[]), 0, 13, 10);
    refused(&board(&[]), 0, 12, 18);
}

#[test]
fn k_posted_twice() {
    let site = four::bytes();
    let mut board = board(&[(3, 0, 8)]);
    let light = four::hex(four::B_LIGHT);
    assert_eq!(desk::post(&site, &mut board, &light), Answer::plain(0));
    assert_eq!(board[..4], [0, 0, 0, 2]);
    let before = board.clone();
    assert_eq!(desk::post(&site, &mut board, &light), Answer::plain(12));
    assert_eq!(board, before);
    // The pairs of the light, by hand: cell 0 at 0 to 6, cell 1 at 6 to 8, cell 2 at 8 and 9, cell 3 at 9 and 10.
    let cell = |c: usize| board[4 + 13 * c..][..13].to_vec();
    assert_eq!(cell(0), [7, 7, 7, 7, 7, 7, 7, 0, 0, 0, 0, 0, 0]);
    assert_eq!(cell(1), [0, 0, 0, 0, 0, 0, 7, 7, 7, 0, 0, 0, 0]);
    assert_eq!(cell(2), [0, 0, 0, 0, 0, 0, 0, 0, 7, 7, 0, 0, 0]);
    assert_eq!(cell(3), [200, 200, 200, 200, 200, 200, 200, 200, 200, 7, 7, 0, 0]);
}

#[test]
fn l_stale_light() {
    let site = four::bytes();
    let mut board = board(&[]);
    let light = granted(&board, 0, 0, &[M(0), M(1), M(2)], 5);
    assert_eq!(desk::close(&site, &mut board, 200, 3, 12, 12), Answer::plain(0));
    let before = board.clone();
    assert_eq!(desk::post(&site, &mut board, &light), Answer::plain(16));
    assert_eq!(board, before);
}

#[test]
fn m_close_beside_a_posted_light() {
    let site = four::bytes();
    let mut board = board(&[]);
    let light = granted(&board, 0, 0, &[M(0), M(1), M(2)], 5);
    assert_eq!(desk::post(&site, &mut board, &light), Answer::plain(0));
    assert_eq!(desk::close(&site, &mut board, 200, 1, 3, 3), Answer::plain(17));
    assert_eq!(desk::close(&site, &mut board, 200, 1, 4, 4), Answer::plain(0));
    assert_eq!(board[..4], [0, 0, 0, 2]);
}

#[test]
fn n_intervals() {
    let mut out = [77; 14];
    let answer = desk::interval(&four::bytes(), &board(&[(1, 4, 4)]), 1, &mut out);
    assert_eq!(answer, Answer { number: 0, value: 2, arrival: 0 });
    assert_eq!(out[..4], [0, 3, 5, 12]);
    assert!(out[4..].iter().all(|&n| n == 77));
}

#[test]
fn o_no_handover() {
    let mut site = four::site();
    site.motions[0].d = 1;
    site.motions[0].sweeps = vec![Sweep { cell: 0, a: 0, b: 0 }, Sweep { cell: 1, a: 1, b: 1 }];
    let file = encode(&site);
    let mut board = vec![0; 4 + 4 * 13];
    assert_eq!(desk::open(&file, &mut board), Answer::plain(6));
    assert_eq!(plain::open(&file, &mut board), Answer::plain(6));
    let (mut out, mut work) = (vec![0; 100], vec![0; 100]);
    assert_eq!(desk::route(&file, &board, 7, 0, 0, 4, 0, &mut out, &mut work), Answer::plain(6));
}

/// A's light with dwell 2, byte by byte.
const A_LIGHT_DWELL_2: &str = "10 000F 00000000 07 0000 0000 0004 0005 0002, 12 0002 0000, 12 0002 0001, 12 0002 0002";

const A_STEPS: [Step; 3] = [Step::Move(0), Step::Move(1), Step::Move(2)];

#[test]
fn dwell_until_the_horizon() {
    let b = board(&[(3, 0, 8)]);
    unloaded(&b, 0, 0, 2, &[W(5), M(0), M(1), M(2)], 10);
    turned_down(&b, 0, 0, 4, 3, 18);
    unloaded(&board(&[]), 0, 0, 7, &A_STEPS, 5);
    turned_down(&board(&[]), 0, 0, 4, 8, 18);
}

/// Cell 3 is closed at 7, so a long dwell needs a later arrival.
#[test]
fn dwell_before_or_after_a_closure() {
    let board = board(&[(3, 7, 7)]);
    unloaded(&board, 0, 0, 1, &A_STEPS, 5);
    unloaded(&board, 0, 0, 2, &[W(4), M(0), M(1), M(2)], 9);
    unloaded(&board, 0, 0, 3, &[W(4), M(0), M(1), M(2)], 9);
    turned_down(&board, 0, 0, 4, 4, 18);
}

#[test]
fn dwell_without_steps() {
    let board = board(&[]);
    unloaded(&board, 4, 3, 9, &[], 3);
    turned_down(&board, 4, 3, 4, 10, 18);
    unloaded(&board, 4, 12, 0, &[], 12);
    turned_down(&board, 4, 12, 4, 1, 18);
}

#[test]
fn dwell_above_the_limit() {
    let board = board(&[]);
    turned_down(&board, 0, 0, 4, 1_000, 18);
    turned_down(&board, 0, 0, 4, 1_001, 10);
    turned_down(&board, 0, 0, 4, 65_535, 10);
    // States 1 and 3 are rolling: 10 comes first.
    turned_down(&board, 0, 0, 3, 1_000, 11);
    turned_down(&board, 0, 0, 3, 1_001, 10);
}

/// One cell and H 1,000: the longest dwell there is, and its high byte.
#[test]
fn longest_dwell() {
    let site = Site { h: 1_000, c: 1, margin: 0, states: vec![State { cell: 0, speed: 0 }], motions: vec![], centres: vec![] };
    let file = encode(&site);
    let mut board = vec![0; 4 + 1_001];
    let (answer, light) = route_on(&site, &board, 0, 0, 0, 1_000);
    assert_eq!(answer, Answer { number: 0, value: 18, arrival: 0 });
    assert_eq!(light, four::hex("10 000F 00000000 07 0000 0000 0000 0000 03E8"));
    assert_eq!(route_on(&site, &board, 0, 1, 0, 1_000).0, Answer::plain(18));
    assert_eq!(route_on(&site, &board, 0, 1, 0, 999).0, Answer { number: 0, value: 18, arrival: 1 });
    assert_eq!(desk::post(&file, &mut board, &light), Answer::plain(0));
    assert!(board[4..].iter().all(|&byte| byte == 7));
}

#[test]
fn posted_dwell_is_held() {
    let site = four::bytes();
    let mut board = board(&[]);
    let light = unloaded(&board, 0, 0, 2, &A_STEPS, 5);
    assert_eq!(light, four::hex(A_LIGHT_DWELL_2));
    assert_eq!(desk::post(&site, &mut board, &light), Answer::plain(0));
    assert_eq!(board[4 + 13 * 3..], [0, 0, 0, 0, 7, 7, 7, 7, 0, 0, 0, 0, 0]);
    assert_eq!(desk::close(&site, &mut board, 200, 3, 7, 7), Answer::plain(17));
    assert_eq!(desk::close(&site, &mut board, 200, 3, 8, 8), Answer::plain(0));
}

/// 'Before a trip and after it' of docs/FORMATS.md: A with dwell 2 is at its goal until 7. The next trip from there has another number and begins at 8.
/// Until it is booked others are granted the cell, though the tug may stand on it, and then it gets 18.
#[test]
fn trip_after_a_trip() {
    let site = four::bytes();
    let mut board = board(&[]);
    let first = unloaded(&board, 0, 0, 2, &A_STEPS, 5);
    assert_eq!(desk::post(&site, &mut board, &first), Answer::plain(0));
    let (mut out, mut work) = (vec![0; 78], vec![0; 65]);
    let mut next = |board: &[u8], tug, tick| desk::route(&site, board, tug, 4, tick, 4, 1, &mut out, &mut work).number;
    assert_eq!([next(&board, 7, 8), next(&board, 8, 7), next(&board, 8, 8)], [12, 18, 0]);
    assert_eq!(desk::close(&site, &mut board, 200, 3, 8, 8), Answer::plain(0));
    assert_eq!(next(&board, 8, 8), 18);
    assert_eq!(desk::withdraw(&site, &mut board, 7), Answer::plain(0));
    assert_eq!(board[4..].iter().filter(|&&byte| byte != 0).count(), 1);
}

/// Audit and post read the dwell in the light, whatever the route was asked for.
#[test]
fn dwell_of_a_light() {
    let site = four::bytes();
    let before = board(&[]);
    let light = four::hex(A_LIGHT_DWELL_2);
    for (dwell, number) in [(0, 0), (2, 0), (7, 0), (8, 17), (256, 17), (1_000, 17), (1_001, 10), (65_535, 10)] {
        let changed = Light { dwell, ..Light::read(&light).unwrap() }.encode();
        assert_eq!(desk::audit(&site, &before, &changed), Answer::plain(number), "audit with dwell {dwell}");
        let mut board = before.clone();
        assert_eq!(desk::post(&site, &mut board, &changed), Answer::plain(number), "post with dwell {dwell}");
        assert_eq!(board == before, number != 0);
    }
    // Cell 3 closed at 8: the light may stay until 7.
    let closed = board(&[(3, 8, 8)]);
    for (dwell, number) in [(2, 0), (3, 17)] {
        let changed = Light { dwell, edition: 1, ..Light::read(&light).unwrap() }.encode();
        assert_eq!(desk::audit(&site, &closed, &changed), Answer::plain(number), "audit with dwell {dwell} before a closure");
    }
    let old_head = four::hex("10 000D 00000000 07 0000 0000 0004 0005, 12 0002 0000, 12 0002 0001, 12 0002 0002");
    assert_eq!(desk::audit(&site, &before, &old_head), Answer::plain(8));
    for len in [14, 16] {
        assert_eq!(desk::audit(&site, &before, &with_head(&light, len).unwrap()), Answer::plain(8), "a head of {len} bytes");
    }
}

#[test]
fn output_area_of_a_route() {
    let (site, board) = (four::bytes(), board(&[]));
    for (len, wanted) in [(77, Answer::plain(14)), (78, Answer { number: 0, value: 33, arrival: 5 })] {
        let (mut out, mut work) = (vec![0xa5; len], vec![7; 65]);
        assert_eq!(desk::route(&site, &board, 7, 0, 0, 4, 2, &mut out, &mut work), wanted, "an output area of {len} bytes");
    }
}

fn motion(from: u16, to: u16, sweeps: [(u16, u8, u8); 2]) -> Motion {
    Motion { from, to, d: 1, sweeps: sweeps.map(|(cell, a, b)| Sweep { cell, a, b }).to_vec() }
}

/// Two cells with a standing state each, and a motion of span 1 either way: M0 from cell 0 to cell 1, M1 back.
fn to_and_fro(h: usize) -> Site {
    let states = vec![State { cell: 0, speed: 0 }, State { cell: 1, speed: 0 }];
    Site { h, c: 2, margin: 0, states, motions: vec![motion(0, 1, [(0, 0, 1), (1, 1, 1)]), motion(1, 0, [(1, 0, 1), (0, 1, 1)])], centres: vec![] }
}

/// The tug stands at its goal, cell 1, which is closed at 2: to unload for two ticks it leaves and comes back, 3 to 5.
#[test]
fn goal_left_and_reached_again() {
    let site = to_and_fro(6);
    let file = encode(&site);
    let mut board = vec![0; 4 + 2 * 7];
    assert_eq!(desk::close(&file, &mut board, 200, 1, 2, 2), Answer::plain(0));
    let (answer, light) = route_on(&site, &board, 1, 0, 1, 2);
    assert_eq!(answer, Answer { number: 0, value: 33, arrival: 3 });
    assert_eq!(light, four::hex("10 000F 00000001 07 0001 0000 0001 0003 0002, 12 0002 0001, 11 0002 0001, 12 0002 0000"));
    // Dwell 1 fits before the closure, dwell 3 just before the horizon, dwell 4 not.
    assert_eq!(route_on(&site, &board, 1, 0, 1, 1).0, Answer { number: 0, value: 18, arrival: 0 });
    assert_eq!(route_on(&site, &board, 1, 0, 1, 3).0, Answer { number: 0, value: 33, arrival: 3 });
    assert_eq!(route_on(&site, &board, 1, 0, 1, 4).0, Answer::plain(18));
    assert_eq!(desk::post(&file, &mut board, &light), Answer::plain(0));
    assert_eq!(board[4..], [0, 7, 7, 7, 0, 0, 0, 7, 7, 200, 7, 7, 7, 0]);
}

/// A tug that must leave cell 0 for its goal, cell 1, comes there too early: it waits, goes on to cell 2 and comes back when cell 1 is no longer
/// closed, at 5. Cell 2 is closed at 2, so that it can't go on at once.
#[test]
fn goal_passed_on_the_way() {
    let mut site = to_and_fro(8);
    site.c = 3;
    site.states.push(State { cell: 2, speed: 0 });
    site.motions = vec![motion(0, 1, [(0, 0, 1), (1, 1, 1)]), motion(1, 2, [(1, 0, 1), (2, 1, 1)]), motion(2, 1, [(2, 0, 1), (1, 1, 1)])];
    let file = encode(&site);
    let mut board = vec![0; 4 + 3 * 9];
    for (holder, cell, first, last) in [(200, 0, 2, 8), (201, 1, 4, 4), (202, 2, 2, 2)] {
        assert_eq!(desk::close(&file, &mut board, holder, cell, first, last), Answer::plain(0));
    }
    let (answer, light) = route_on(&site, &board, 0, 0, 1, 3);
    assert_eq!(answer, Answer { number: 0, value: 43, arrival: 5 });
    let steps = "12 0002 0000, 11 0002 0001, 12 0002 0001, 11 0002 0001, 12 0002 0002";
    assert_eq!(light, four::hex(&format!("10 000F 00000003 07 0000 0000 0001 0005 0003, {steps}")));
    assert_eq!(route_on(&site, &board, 0, 0, 1, 2).0, Answer { number: 0, value: 23, arrival: 1 });
    assert_eq!(route_on(&site, &board, 0, 0, 1, 4).0, Answer::plain(18));
    assert_eq!(desk::audit(&file, &board, &light), Answer::plain(0));
}

/// 1,000 steps and the head are 5,018 bytes; one step more is too long.
#[test]
fn longest_light() {
    let site = to_and_fro(1_000);
    let (file, board) = (encode(&site), vec![0; 4 + 2 * 1_001]);
    for (steps, number) in [(1_000, 0), (1_001, 8)] {
        let goal = steps % 2;
        let light = Light { edition: 0, tug: 7, start: 0, tick: 0, goal, arrival: 1_000, dwell: 0, steps: (0..steps).map(|i| M(i % 2)).collect() };
        let bytes = light.encode();
        assert_eq!(bytes.len(), 18 + 5 * steps as usize);
        assert_eq!(desk::audit(&file, &board, &bytes), Answer::plain(number), "{steps} steps");
    }
}

#[test]
fn margin_in_the_head() {
    for (margin, number) in [(0, 0), (20, 0), (21, 3), (255, 3)] {
        let file = encode(&four::with_margin(margin));
        assert_eq!((file.len(), desk::open(&file, &mut [9; 56]).number), (116, number), "margin {margin}");
    }
    let without = four::hex(&format!("01 0006 000C 0004 0005 {}", "02 0003 0000 00 ".repeat(5)));
    assert_eq!(desk::open(&without, &mut [9; 56]), Answer::plain(3));
    assert_eq!(desk::open(&with_head(&without, 7).unwrap(), &mut [9; 56]), Answer::plain(0));
    assert_eq!(desk::open(&with_head(&four::bytes(), 8).unwrap(), &mut [9; 56]), Answer::plain(3));
}

/// The worked hall with a margin, and a board on which A's light is posted: cell 0 is held at 0 and 1, cell 1 at 1 to 3, cell 2 at 3 and 4, cell 3
/// at 4 and 5.
fn behind_a(margin: usize) -> (Site, Vec<u8>) {
    let site = four::with_margin(margin);
    let mut board = vec![0; 56];
    let (answer, light) = route_on(&site, &board, 0, 0, 4, 0);
    assert_eq!(answer, Answer { number: 0, value: 33, arrival: 5 });
    assert_eq!(desk::post(&encode(&site), &mut board, &light), Answer::plain(0));
    (site, board)
}

/// The margin is asked for, and not held.
#[test]
fn margin_is_not_written() {
    let (_, board) = behind_a(2);
    assert_eq!(board[..4], [0, 0, 0, 1]);
    let rows = [[7, 7, 0, 0, 0, 0], [0, 7, 7, 7, 0, 0], [0, 0, 0, 7, 7, 0], [0, 0, 0, 0, 7, 7]];
    for (cell, row) in rows.iter().enumerate() {
        assert_eq!(board[4 + 13 * cell..][..6], *row, "cell {cell}");
        assert_eq!(board[10 + 13 * cell..][..7], [0; 7], "cell {cell}");
    }
}

/// Tug 8 follows A from a tick on. It waits for one tick, as cell 1 is left two ticks after cell 0, and M0 uses it one tick after its start.
#[test]
fn margin_between_two_tugs() {
    for (margin, tick, arrival) in [(0, 2, 8), (1, 3, 9), (2, 4, 10), (4, 6, 12)] {
        let (site, board) = behind_a(margin);
        let (answer, light) = route_of(8, &site, &board, 0, tick, 4, 0);
        assert_eq!(answer, Answer { number: 0, value: 38, arrival: arrival as u32 }, "margin {margin} from {tick}");
        let wanted = Light { edition: 1, tug: 8, start: 0, tick, goal: 4, arrival, dwell: 0, steps: vec![W(1), M(0), M(1), M(2)] };
        assert_eq!(Light::read(&light), Some(wanted), "margin {margin} from {tick}");
        assert_eq!(desk::audit(&encode(&site), &board, &light), Answer::plain(0), "margin {margin} from {tick}");
        // One tick earlier cell 0 is not free, as A was there at 1.
        assert_eq!(route_of(8, &site, &board, 0, tick - 1, 4, 0), (Answer::plain(18), vec![]), "margin {margin} from {}", tick - 1);
        // Without the wait it comes too near in cell 1.
        let hasty = Light { edition: 1, tug: 8, start: 0, tick, goal: 4, arrival: arrival - 1, dwell: 0, steps: vec![M(0), M(1), M(2)] };
        assert_eq!(desk::audit(&encode(&site), &board, &hasty.encode()), Answer::plain(17), "margin {margin} from {tick}");
    }
    let (site, board) = behind_a(5);
    assert_eq!(route_of(8, &site, &board, 0, 7, 4, 0), (Answer::plain(18), vec![]));
}

/// The safe intervals of a cell, one number after the other.
fn intervals(site: &Site, board: &[u8], cell: u16) -> Vec<u16> {
    let mut out = [77; 14];
    let answer = desk::interval(&encode(site), board, cell, &mut out);
    assert_eq!((answer.number, answer.arrival), (0, 0));
    let (written, rest) = out.split_at(2 * answer.value as usize);
    assert!(rest.iter().all(|&n| n == 77));
    written.to_vec()
}

#[test]
fn margin_of_intervals() {
    let posted: [(usize, &[u16]); 5] = [(0, &[0, 0, 4, 12]), (1, &[5, 12]), (2, &[6, 12]), (8, &[12, 12]), (9, &[])];
    for (margin, wanted) in posted {
        let (site, board) = behind_a(margin);
        assert_eq!(intervals(&site, &board, 1), wanted, "behind A, margin {margin}");
    }
    // Case N.
    let closed: [(usize, &[u16]); 4] = [(0, &[0, 3, 5, 12]), (1, &[0, 2, 6, 12]), (4, &[9, 12]), (8, &[])];
    for (margin, wanted) in closed {
        assert_eq!(intervals(&four::with_margin(margin), &board(&[(1, 4, 4)]), 1), wanted, "cell 1 closed at 4, margin {margin}");
    }
}

#[test]
fn margin_between_a_tug_and_a_closure() {
    let closes = [(0, 3, 3, 17), (0, 4, 4, 0), (1, 4, 4, 17), (1, 5, 5, 0), (1, 0, 0, 17), (2, 5, 12, 17), (2, 6, 12, 0)];
    for (margin, first, last, number) in closes {
        let (site, mut board) = behind_a(margin);
        let before = board.clone();
        assert_eq!(desk::close(&encode(&site), &mut board, 200, 1, first, last), Answer::plain(number), "margin {margin}, {first} to {last}");
        assert_eq!(board == before, number != 0);
    }
    // A's light, with cell 1 closed behind it.
    let site = encode(&four::with_margin(1));
    let light = Light { edition: 1, tug: 7, start: 0, tick: 0, goal: 4, arrival: 5, dwell: 0, steps: A_STEPS.to_vec() }.encode();
    for (tick, number) in [(5, 0), (4, 17)] {
        assert_eq!(desk::audit(&site, &board(&[(1, tick, tick)]), &light), Answer::plain(number), "cell 1 closed at {tick}");
    }
}

#[test]
fn closures_may_touch() {
    let site = encode(&four::with_margin(20));
    let mut board = vec![0; 56];
    for (holder, first, last, number) in [(200, 0, 5, 0), (201, 6, 8, 0), (202, 8, 9, 17), (202, 9, 9, 0)] {
        assert_eq!(desk::close(&site, &mut board, holder, 3, first, last), Answer::plain(number), "closure {holder} from {first} to {last}");
    }
    assert_eq!(board[4 + 13 * 3..], [200, 200, 200, 200, 200, 200, 201, 201, 201, 202, 0, 0, 0]);
}

/// Cell 1 has byte 255 at 4: it keeps tugs away as others do, and closures only from its own pair.
#[test]
fn margin_and_byte_255() {
    let site = four::with_margin(1);
    let file = encode(&site);
    let mut before = vec![0; 56];
    before[4 + 13 + 4] = 255;
    let light = Light { edition: 0, tug: 7, start: 0, tick: 0, goal: 4, arrival: 5, dwell: 0, steps: A_STEPS.to_vec() }.encode();
    assert_eq!(desk::audit(&file, &before, &light), Answer::plain(17));
    assert_eq!(intervals(&site, &before, 1), [0, 2, 6, 12]);
    for (first, last, number) in [(5, 5, 0), (3, 3, 0), (4, 4, 17), (3, 4, 17)] {
        let mut board = before.clone();
        assert_eq!(desk::close(&file, &mut board, 200, 1, first, last), Answer::plain(number), "{first} to {last}");
    }
}

/// Cell 3 is closed at 9, so with margin 1 a tug may unload there until 7.
#[test]
fn margin_of_a_dwell() {
    let (site, board) = (four::with_margin(1), board(&[(3, 9, 9)]));
    for (dwell, wanted) in [(2, Answer { number: 0, value: 33, arrival: 5 }), (3, Answer::plain(18))] {
        assert_eq!(route_on(&site, &board, 0, 0, 4, dwell).0, wanted, "dwell {dwell}");
        let light = Light { edition: 1, tug: 7, start: 0, tick: 0, goal: 4, arrival: 5, dwell, steps: A_STEPS.to_vec() }.encode();
        assert_eq!(desk::audit(&encode(&site), &board, &light).number, if dwell == 2 { 0 } else { 17 }, "dwell {dwell}");
    }
}
