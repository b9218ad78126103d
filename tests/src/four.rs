//! The worked hall 'Four in line', from its numbers as docs/FORMATS.md has them.

use crate::literal::{encode, Centre, Motion, Site, State, Sweep};

fn motion(from: u16, to: u16, d: u8, sweeps: &[(u16, u8, u8)]) -> Motion {
    Motion { from, to, d, sweeps: sweeps.iter().map(|&(cell, a, b)| Sweep { cell, a, b }).collect() }
}

/// The hall with a margin. Its own is 0.
pub fn with_margin(margin: usize) -> Site {
    let states = [(0, 0), (1, 1), (1, 0), (2, 1), (3, 0)];
    Site {
        h: 12,
        c: 4,
        margin,
        states: states.iter().map(|&(cell, speed)| State { cell, speed }).collect(),
        motions: vec![
            motion(0, 1, 2, &[(0, 0, 1), (1, 1, 2)]),
            motion(1, 3, 1, &[(1, 0, 1), (2, 1, 1)]),
            motion(3, 4, 2, &[(2, 0, 1), (3, 1, 2)]),
            motion(1, 2, 2, &[(1, 0, 2)]),
            motion(2, 3, 2, &[(1, 0, 1), (2, 1, 2)]),
        ],
        centres: vec![],
    }
}

/// The hall with a margin and the centres that docs/FORMATS.md gives it.
pub fn with_centres(margin: usize) -> Site {
    let centres = [(0, 0), (1_000, 0), (2_000, 500), (3_000, 500)];
    Site { centres: centres.map(|(x, y)| Centre { x, y }).to_vec(), ..with_margin(margin) }
}

pub fn site() -> Site {
    with_margin(0)
}

pub fn bytes() -> Vec<u8> {
    encode(&site())
}

/// The file with centres.
pub fn drawn_bytes() -> Vec<u8> {
    encode(&with_centres(0))
}

/// The light of case B.
pub const B_LIGHT: &str = "10 000F 00000001 07 0000 0000 0004 000A 0000, 11 0002 0005, 12 0002 0000, 12 0002 0001, 12 0002 0002";

pub fn hex(text: &str) -> Vec<u8> {
    let digits: Vec<u8> = text.chars().filter_map(|c| c.to_digit(16)).map(|d| d as u8).collect();
    digits.chunks(2).map(|pair| pair[0] * 16 + pair[1]).collect()
}
