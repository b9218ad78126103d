//! One held tick near every border at which a margin can be cut off: tick 0, the horizon, and the borders of the words of 64 ticks and of the blocks of 256
//! in which the desk searches. What each call answers for ticks just within the margin and just past it is worked out here from their distance.

use dispatch_tests::desk::{self, Answer};
use dispatch_tests::literal::{encode, Centre, Light, Motion, Site, State, Step, Sweep};

const MARGINS: [usize; 4] = [0, 1, 2, 20];
/// The largest one, and others next to borders. ./faults runs the simple desk, which is slow, for each of its faults.
const HORIZONS: [usize; 6] = [if cfg!(feature = "standin") { 320 } else { 1_000 }, 63, 64, 255, 256, 257];
/// A short motion, and one longer than a word.
const SPANS: [usize; 2] = [1, 130];
/// What a tick can be held by: tugs, closures and nobody known.
const HOLDERS: [u8; 6] = [1, 9, 199, 200, 254, 255];
const TUG: u8 = 7;

/// Two cells with a standing state each, and a motion from the first state to the second, which uses the second cell all the time. With an even horizon it has
/// centres, which change nothing.
fn hall(h: usize, margin: usize, span: usize) -> Site {
    let states = [0, 1].map(|cell| State { cell, speed: 0 }).to_vec();
    let sweeps = vec![Sweep { cell: 0, a: 0, b: 0 }, Sweep { cell: 1, a: 0, b: span as u8 }];
    let centres = if h % 2 == 0 { vec![Centre { x: 3, y: 4 }; 2] } else { vec![] };
    Site { h, c: 2, margin, states, motions: vec![Motion { from: 0, to: 1, d: span as u8, sweeps }], centres }
}

/// A hall, a held tick, and a tick in question next to where the margin ends.
struct Place {
    site: Site,
    held: usize,
    tick: usize,
}

impl Place {
    fn span(&self) -> usize {
        self.site.motions[0].d as usize
    }

    /// The holder of the held tick. Each comes up.
    fn holder(&self) -> u8 {
        HOLDERS[(self.held + self.tick) % HOLDERS.len()]
    }

    fn board(&self, cell: usize, holder: u8) -> Vec<u8> {
        let mut board = vec![0; self.site.board_len()];
        board[4 + cell * (self.site.h + 1) + self.held] = holder;
        board
    }

    /// Whether the ticks from one to another are past the margin of the held one, and within the horizon.
    fn clear(&self, first: usize, last: usize) -> bool {
        last <= self.site.h && (last + self.site.margin < self.held || self.held + self.site.margin < first)
    }

    fn route(&self, board: &[u8], start: u16, tick: usize, dwell: usize) -> Answer {
        let (mut out, mut work) = (vec![0; self.site.output_len()], vec![0; 2 * (self.site.h + 1)]);
        desk::route(&encode(&self.site), board, TUG, start, tick as u16, 1, dwell as u16, &mut out, &mut work)
    }

    fn audit(&self, board: &[u8], start: u16, tick: usize, arrival: usize, dwell: usize, steps: Vec<Step>) -> u8 {
        let light = Light { edition: 0, tug: TUG, start, tick: tick as u16, goal: 1, arrival: arrival as u16, dwell: dwell as u16, steps };
        desk::audit(&encode(&self.site), board, &light.encode()).number
    }

    fn says(&self) -> String {
        let Place { site, held, tick } = self;
        format!("H {}, margin {}, span {}, held at {held} by {}, tick {tick}", site.h, site.margin, self.span(), self.holder())
    }
}

/// Every place: the held tick is about as far from a border as the margin is wide, and the tick in question as far from the held one, on both sides.
fn each_place(spans: &[usize], check: impl Fn(&Place)) {
    let mut places = [0; 2];
    for (h, margin) in HORIZONS.into_iter().flat_map(|h| MARGINS.map(|margin| (h, margin))) {
        let near = |border: usize| border.saturating_sub(margin + 2)..=(border + margin + 2).min(h);
        let mut held: Vec<usize> = (0..=h).step_by(64).chain([h]).flat_map(near).collect();
        held.sort_unstable();
        held.dedup();
        for (span, held) in spans.iter().flat_map(|&span| held.iter().map(move |&held| (span, held))) {
            for away in [margin, margin + 1] {
                for tick in [held.checked_sub(away), Some(held + away)].into_iter().flatten().filter(|&tick| tick <= h) {
                    check(&Place { site: hall(h, margin, span), held, tick });
                    places[usize::from(away > margin)] += 1;
                }
            }
        }
    }
    assert!(places.iter().all(|&places| places >= 2_000), "only {places:?} places");
}

/// A tug starts at the tick in question, in the held cell, and goes on at once.
#[test]
fn starts() {
    each_place(&[1], |place| {
        let (tick, board) = (place.tick, place.board(0, place.holder()));
        let arrival = tick + place.span();
        let wanted = place.clear(tick, tick) && arrival <= place.site.h;
        let answer = if wanted { Answer { number: 0, value: 23, arrival: arrival as u32 } } else { Answer::plain(18) };
        assert_eq!(place.route(&board, 0, tick, 0), answer, "{}", place.says());
        if arrival <= place.site.h {
            assert_eq!(place.audit(&board, 0, tick, arrival, 0, vec![Step::Move(0)]), if wanted { 0 } else { 17 }, "{}", place.says());
        }
    });
}

/// A motion whose sweep begins or ends at the tick in question. If the cell isn't free the tug waits until it is.
#[test]
fn sweeps() {
    each_place(&SPANS, |place| {
        let (span, board) = (place.span(), place.board(1, place.holder()));
        for tick in [Some(place.tick), place.tick.checked_sub(span)].into_iter().flatten() {
            let start = if tick + span + place.site.margin < place.held { tick } else { tick.max(place.held + place.site.margin + 1) };
            let steps = if start == tick { 1 } else { 2 };
            let granted = Answer { number: 0, value: 18 + 5 * steps, arrival: (start + span) as u32 };
            let wanted = if start + span <= place.site.h { granted } else { Answer::plain(18) };
            assert_eq!(place.route(&board, 0, tick, 0), wanted, "from {tick}, {}", place.says());
            if tick + span <= place.site.h {
                let number = if place.clear(tick, tick + span) { 0 } else { 17 };
                assert_eq!(place.audit(&board, 0, tick, tick + span, 0, vec![Step::Move(0)]), number, "from {tick}, {}", place.says());
            }
        }
    });
}

/// A tug unloads up to the tick in question or from there on, in a state that no motion leaves; or waits so long there.
#[test]
fn dwells_and_waits() {
    each_place(&[1], |place| {
        let board = place.board(1, place.holder());
        for (ticks, before) in [0, 1, 70].into_iter().flat_map(|ticks| [(ticks, 0), (ticks, ticks)]) {
            let Some(tick) = place.tick.checked_sub(before) else { continue };
            let wanted = place.clear(tick, tick + ticks);
            let answer = if wanted { Answer { number: 0, value: 18, arrival: tick as u32 } } else { Answer::plain(18) };
            assert_eq!(place.route(&board, 1, tick, ticks), answer, "from {tick} for {ticks}, {}", place.says());
            let number = if wanted { 0 } else { 17 };
            assert_eq!(place.audit(&board, 1, tick, tick, ticks, vec![]), number, "from {tick} for {ticks}, {}", place.says());
            if ticks > 0 && tick + ticks <= place.site.h {
                let waited = place.audit(&board, 1, tick, tick + ticks, 0, vec![Step::Wait(ticks as u16)]);
                assert_eq!(waited, number, "a wait from {tick} for {ticks}, {}", place.says());
            }
        }
    });
}

/// Closures keep the margin from tugs alone, and from nobody's own ticks.
#[test]
fn closes() {
    each_place(&[1], |place| {
        let file = encode(&place.site);
        for (holder, cell) in HOLDERS.into_iter().flat_map(|holder| [(holder, 0), (holder, 1)]) {
            let before = place.board(cell, holder);
            for (first, last) in [(place.tick, place.tick), (place.tick.saturating_sub(2), place.tick), (place.tick, place.tick + 70)] {
                if last > place.site.h {
                    continue;
                }
                let held = (first..=last).contains(&place.held);
                let accepted = if holder <= 199 { place.clear(first, last) } else { !held };
                let mut board = before.clone();
                let number = desk::close(&file, &mut board, 201, cell as u16, first as u16, last as u16).number;
                assert_eq!(number, if accepted { 0 } else { 17 }, "{first} to {last} beside {holder} in cell {cell}, {}", place.says());
                let mut wanted = before.clone();
                if accepted {
                    wanted[4 + cell * (place.site.h + 1)..][first..=last].fill(201);
                    wanted[3] = 1;
                }
                assert!(board == wanted, "the board behind {first} to {last}, {}", place.says());
            }
        }
    });
}

/// What the margin leaves before the held tick and behind it. The other cell has the same ticks free as ever.
#[test]
fn intervals() {
    each_place(&[1], |place| {
        let (h, margin, file) = (place.site.h, place.site.margin, encode(&place.site));
        for cell in [0, 1] {
            let board = place.board(cell, place.holder());
            let mut wanted = Vec::new();
            if let Some(last) = place.held.checked_sub(margin + 1) {
                wanted.extend([0, last as u16]);
            }
            if place.held + margin < h {
                wanted.extend([(place.held + margin + 1) as u16, h as u16]);
            }
            for (asked, wanted) in [(cell, wanted), (1 - cell, vec![0, h as u16])] {
                let mut out = vec![7_777; h + 2];
                let answer = desk::interval(&file, &board, asked as u16, &mut out);
                assert_eq!(answer, Answer { number: 0, value: wanted.len() as u32 / 2, arrival: 0 }, "cell {asked}, {}", place.says());
                assert_eq!(out[..wanted.len()], wanted, "cell {asked}, {}", place.says());
                assert!(out[wanted.len()..].iter().all(|&n| n == 7_777), "cell {asked}, {}", place.says());
            }
        }
    });
}
