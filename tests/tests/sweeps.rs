//! Sweeps with every choice of small ends: the desk's answer to a site of one motion, against the offsets of its sweeps listed one by one.

use dispatch_tests::desk;
use dispatch_tests::literal::{encode, Motion, Site, State, Sweep};

const CELLS: u16 = 2;

/// A sweep's offsets; none where its end lies before its start.
fn offsets(w: &Sweep) -> Vec<u8> {
    (w.a..=w.b).collect()
}

fn used(sweeps: &[Sweep], cell: u16, offset: u8) -> bool {
    sweeps.iter().any(|w| w.cell == cell && offsets(w).contains(&offset))
}

/// The rules on the sweeps of a motion from cell 0 to cell 1.
fn keep_the_rules(d: u8, sweeps: &[Sweep]) -> bool {
    sweeps.iter().all(|w| w.cell < CELLS && !offsets(w).is_empty() && offsets(w).iter().all(|&offset| offset <= d))
        && used(sweeps, 0, 0)
        && used(sweeps, 1, d)
        && (0..d).all(|j| (0..CELLS).any(|cell| used(sweeps, cell, j) && used(sweeps, cell, j + 1)))
}

/// The desk's number for a hall of two cells with one motion from the first to the second.
fn number(d: u8, sweeps: &[Sweep]) -> u8 {
    let states = (0..CELLS).map(|cell| State { cell, speed: 0 }).collect();
    let motions = vec![Motion { from: 0, to: 1, d, sweeps: sweeps.to_vec() }];
    let site = Site { h: 1, c: CELLS as usize, margin: 0, states, motions, centres: vec![] };
    desk::open(&encode(&site), &mut vec![9; site.board_len()]).number
}

/// Every sweep of a cell below a bound with ends up to a last one, in either order.
fn all_sweeps(cells: u16, last: u8) -> Vec<Sweep> {
    let ends = move |cell| (0..=last).flat_map(move |a| (0..=last).map(move |b| Sweep { cell, a, b }));
    (0..cells).flat_map(ends).collect()
}

/// Compares, and counts the motions that keep the rules and those that do not.
fn compare(d: u8, sweeps: &[Sweep], counts: &mut [usize; 2]) {
    let good = keep_the_rules(d, sweeps);
    assert_eq!(number(d, sweeps), if good { 0 } else { 6 }, "span {d}, {sweeps:?}");
    counts[!good as usize] += 1;
}

#[test]
fn two_sweeps() {
    let mut counts = [0; 2];
    for d in 1..=3 {
        for x in all_sweeps(CELLS + 1, d + 1) {
            for y in all_sweeps(CELLS + 1, d + 1) {
                compare(d, &[x, y], &mut counts);
            }
        }
    }
    assert!(counts[0] >= 30 && counts[1] >= 5_000, "{counts:?}");
}

#[test]
fn three_sweeps() {
    let mut counts = [0; 2];
    let all = all_sweeps(CELLS, 3);
    for &x in &all {
        for &y in &all {
            for &z in &all {
                compare(3, &[x, y, z], &mut counts);
            }
        }
    }
    assert!(counts[0] >= 1_000 && counts[1] >= 5_000, "{counts:?}");
}

/// Up to the largest offset: sweeps that share one offset hand over there, and sweeps that only adjoin, of two cells, do not.
#[test]
fn long_sweeps() {
    let from = |b| Sweep { cell: 0, a: 0, b };
    let to = |a| Sweep { cell: 1, a, b: 255 };
    for k in 0..=255 {
        assert_eq!(number(255, &[from(k), to(k)]), 0, "both at {k}");
        assert_eq!(number(255, &[to(k), from(k)]), 0, "both at {k}, the later first");
    }
    for k in 0..255 {
        assert_eq!(number(255, &[from(k), to(k + 1)]), 6, "apart after {k}");
        assert_eq!(number(255, &[from(k), Sweep { cell: 0, ..to(k + 1) }, to(255)]), 0, "one cell, adjoining after {k}");
    }
}
