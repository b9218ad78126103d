//! Sites at every limit of a site file, and one past it, against the literal reading of the calls (`src/literal_desk.rs`): number, values and every lent
//! byte. From an opened board they are compared with the plain board too.

use dispatch_tests::desk::{self, Answer};
use dispatch_tests::gen::{self, possible, Call, Caller, Rng, CALLS};
use dispatch_tests::lent::Values;
use dispatch_tests::literal::{encode, with_head, Centre, Light, Motion, Site, State, Step, Sweep, HEAD_LEN, MAX_MARGIN, MAX_SWEEPS, SWEEP_LEN};
use dispatch_tests::plain_board::PlainBoard;
use dispatch_tests::{literal_desk, run};
use std::collections::BTreeSet;

/// The calls and numbers that a test has met.
type Met = BTreeSet<(usize, u8)>;

/// A ring of states. State k lies in cell k % c, but the last state in the last cell. The first s motions lead each to the next state, and later ones
/// to the states behind it; all have span 1. State 1 and every fourth one from there is rolling, but not the last state.
fn ring(h: usize, c: usize, s: usize, motions: usize) -> Site {
    let cell = |state: usize| if state + 1 == s { c - 1 } else { state % c } as u16;
    let states = (0..s).map(|k| State { cell: cell(k), speed: (k % 4 == 1 && k + 1 < s) as u8 }).collect();
    let motion = |k: usize| {
        let from = k % s;
        let to = (from + 1 + k / s % (s - 1)) % s;
        let mut sweeps = vec![Sweep { cell: cell(from), a: 0, b: 1 }];
        if cell(to) != cell(from) {
            sweeps.push(Sweep { cell: cell(to), a: 1, b: 1 });
        }
        Motion { from: from as u16, to: to as u16, d: 1, sweeps }
    };
    Site { h, c, margin: 0, states, motions: (0..motions).map(motion).collect(), centres: vec![] }
}

/// Gives a motion another span, and so many sweeps: those that it needs, then of the last cell, up to the motion's end.
fn reshape(site: &mut Site, k: usize, d: u8, sweeps: usize) {
    let last = site.c as u16 - 1;
    let [from, to] = [site.motions[k].from, site.motions[k].to].map(|state| site.states[state as usize].cell);
    let motion = &mut site.motions[k];
    motion.d = d;
    motion.sweeps = vec![Sweep { cell: from, a: 0, b: d }, Sweep { cell: to, a: d, b: d }];
    motion.sweeps.extend((2..sweeps).map(|i| Sweep { cell: last, a: d - d.min(i as u8), b: d }));
}

/// Repeats sweeps until the file has so many bytes.
fn filled(mut site: Site, len: usize) -> Site {
    let mut more = (len - encode(&site).len()) / SWEEP_LEN;
    for motion in &mut site.motions {
        while more > 0 && motion.sweeps.len() < MAX_SWEEPS {
            motion.sweeps.push(motion.sweeps[0]);
            more -= 1;
        }
    }
    assert_eq!(encode(&site).len(), len);
    site
}

/// The site with so many centres, no two of them alike, from one end of what two bytes can say to the other.
fn drawn(site: Site, centres: usize) -> Site {
    let centre = |k: usize| Centre { x: (k * 65_535 / centres.max(2)) as u16, y: 65_535 - k as u16 };
    Site { centres: (0..centres).map(centre).collect(), ..site }
}

/// A small hall with a margin.
fn apart(margin: usize, h: usize) -> Site {
    Site { margin, ..ring(h, 4, 5, 9) }
}

/// A hall of few states, changed.
fn with_cells(c: usize, change: impl Fn(&mut Site)) -> Site {
    let mut site = ring(12, c, 5, 9);
    change(&mut site);
    site
}

/// A small hall, changed.
fn with(change: impl Fn(&mut Site)) -> Site {
    with_cells(4, change)
}

/// Lets no motion but the last one lead to the last state, so that routes there need it.
fn need_last(site: &mut Site) {
    let (last, m) = (site.states.len() - 1, site.motions.len() - 1);
    for k in 0..m {
        if site.motions[k].to as usize == last {
            site.motions[k].to = if site.motions[k].from == 0 { 1 } else { 0 };
            reshape(site, k, 1, 2);
        }
    }
    (site.motions[m].from, site.motions[m].to) = (0, last as u16);
    reshape(site, m, 1, 2);
}

/// A small hall whose last motion, with the longest span, is the only one to the last state.
fn slow(h: usize) -> Site {
    let mut site = ring(h, 4, 5, 9);
    need_last(&mut site);
    reshape(&mut site, 8, 255, 5);
    site
}

/// Sites at each limit of the head and of the numbers of fields and bytes, and one past it, with the number of the refusal.
#[rustfmt::skip]
fn sizes() -> Vec<(&'static str, Site, u8)> {
    let mut needed = ring(12, 4, 5, 4_000);
    need_last(&mut needed);
    vec![
        ("H 0", with(|site| site.h = 0), 3),
        ("H 1", ring(1, 4, 5, 9), 0),
        ("H 1,000", ring(1_000, 4, 5, 9), 0),
        ("H 1,001", ring(1_001, 4, 5, 9), 3),
        ("C 0", with(|site| site.c = 0), 3),
        ("C 1", ring(12, 1, 5, 9), 0),
        ("C 255", ring(12, 255, 5, 9), 0),
        ("C 256", ring(12, 256, 5, 9), 0),
        ("C 257", ring(12, 257, 5, 9), 0),
        ("C 640", ring(12, 640, 5, 9), 0),
        ("C 1,000", ring(12, 1_000, 5, 9), 0),
        ("C 1,001", ring(12, 1_001, 5, 9), 3),
        // Their low bytes are 4.
        ("C 1,028", with(|site| site.c = 1_028), 3),
        ("C 65,284", with(|site| site.c = 65_284), 3),
        ("C 65,535", with(|site| site.c = 65_535), 3),
        ("S 0", with(|site| (site.states, site.motions) = (vec![], vec![])), 3),
        ("S 1", ring(12, 4, 1, 0), 0),
        ("S 256", ring(12, 255, 256, 300), 0),
        ("S 257", ring(12, 255, 257, 300), 0),
        ("S 1,280", ring(12, 1_000, 1_280, 1_400), 0),
        ("S 1,281", ring(12, 1_000, 1_281, 1_400), 3),
        ("S 1,285", ring(12, 4, 1_285, 9), 3),
        ("no motions", ring(12, 4, 5, 0), 0),
        ("2,001 motions", ring(12, 4, 5, 2_001), 0),
        ("4,000 motions", needed, 0),
        ("4,001 motions", ring(12, 4, 5, 4_001), 4),
        ("margin 1, H 12", apart(1, 12), 0),
        ("margin 20, H 1,000", apart(20, 1_000), 0),
        ("margin 20, H 19", apart(20, 19), 0),
        ("margin 20, H 20", apart(20, 20), 0),
        ("margin 20, H 21", apart(20, 21), 0),
        ("margin 20, H 41", apart(20, 41), 0),
        ("margin 21", apart(21, 12), 3),
        ("margin 255", apart(255, 12), 3),
        ("65,536 bytes", filled(ring(12, 4, 5, 4_000), 65_536), 0),
        // An even number of states and fields of the right lengths can't have one byte too many.
        ("65,538 bytes", filled(ring(12, 4, 6, 4_000), 65_538), 1),
        ("C 1 and a centre", drawn(ring(12, 1, 5, 9), 1), 0),
        ("C 1 and two centres", drawn(ring(12, 1, 5, 9), 2), 4),
        ("C 4 and 3 centres", drawn(ring(12, 4, 5, 9), 3), 4),
        ("C 4 and 4 centres", drawn(ring(12, 4, 5, 9), 4), 0),
        ("C 4 and 5 centres", drawn(ring(12, 4, 5, 9), 5), 4),
        ("C 257 and a centre", drawn(ring(12, 257, 5, 9), 1), 4),
        ("C 1,000 and 999 centres", drawn(ring(12, 1_000, 5, 9), 999), 4),
        ("C 1,000 and 1,000 centres", drawn(ring(12, 1_000, 5, 9), 1_000), 0),
        ("C 1,000 and 1,001 centres", drawn(ring(12, 1_000, 5, 9), 1_001), 4),
        ("C 1,001 and 1,001 centres", drawn(ring(12, 1_001, 5, 9), 1_001), 3),
        ("no motions and 4 centres", drawn(ring(12, 4, 5, 0), 4), 0),
        ("4,000 motions and 4 centres", drawn(ring(12, 4, 5, 4_000), 4), 0),
        ("4,001 motions and 4 centres", drawn(ring(12, 4, 5, 4_001), 4), 4),
        ("65,536 bytes and 1,000 centres", filled(drawn(ring(12, 1_000, 5, 3_000), 1_000), 65_536), 0),
        ("65,536 bytes and 4 centres", filled(drawn(ring(12, 4, 5, 4_000), 4), 65_536), 0),
        // With an odd number of centres it can.
        ("65,537 bytes and 3 centres", filled(drawn(ring(12, 3, 5, 4_000), 3), 65_537), 1),
    ]
}

/// Sites at each limit of the values of states and motions, and one past it.
#[rustfmt::skip]
fn values() -> Vec<(&'static str, Site, u8)> {
    let state_of = |c, cell| with_cells(c, |site| site.states.push(State { cell, speed: 0 }));
    let sweep_of = |c, cell, a, b| with_cells(c, |site| site.motions[8].sweeps.push(Sweep { cell, a, b }));
    let sweep = |cell, a, b| sweep_of(4, cell, a, b);
    vec![
        ("a state in cell C - 1", state_of(4, 3), 0),
        ("a state in cell C", state_of(4, 4), 5),
        ("a state in cell 256 of 4", state_of(4, 256), 5),
        ("a state in cell 65,283 of 4", state_of(4, 65_283), 5),
        ("a state in cell 255 of 256", state_of(256, 255), 0),
        ("a state in cell 256 of 256", state_of(256, 256), 5),
        ("a state in cell 256 of 257", state_of(257, 256), 0),
        ("a state in cell 999 of 1,000", state_of(1_000, 999), 0),
        ("a state in cell 1,000 of 1,000", state_of(1_000, 1_000), 5),
        ("a sweep of cell C - 1", sweep(3, 0, 0), 0),
        ("a sweep of cell C", sweep(4, 0, 0), 6),
        ("a sweep of cell 256 of 4", sweep(256, 0, 0), 6),
        ("a sweep of cell 65,283 of 4", sweep(65_283, 0, 0), 6),
        ("a sweep of cell 255 of 256", sweep_of(256, 255, 0, 0), 0),
        ("a sweep of cell 256 of 256", sweep_of(256, 256, 0, 0), 6),
        ("a sweep of cell 256 of 257", sweep_of(257, 256, 0, 0), 0),
        ("a sweep of cell 999 of 1,000", sweep_of(1_000, 999, 0, 0), 0),
        ("a sweep of cell 1,000 of 1,000", sweep_of(1_000, 1_000, 0, 0), 6),
        ("a sweep up to the span", sweep(0, 1, 1), 0),
        ("a sweep past the span", sweep(0, 1, 2), 6),
        ("from S - 1", with(|site| site.motions.push(site.motions[4].clone())), 0),
        ("from S", with(|site| site.motions[8].from = 5), 6),
        ("to S - 1", with(|site| site.motions.push(site.motions[3].clone())), 0),
        ("to S", with(|site| site.motions[8].to = 5), 6),
        ("no sweeps", with(|site| site.motions[8].sweeps.clear()), 4),
        ("1 sweep", with(|site| { site.states.push(site.states[4]); site.motions.push(Motion { to: 5, ..site.motions[3].clone() }) }), 0),
        ("16 sweeps", with(|site| (0..9).for_each(|k| reshape(site, k, 1 + k as u8 % 3, 16))), 0),
        ("17 sweeps", with(|site| reshape(site, 8, 3, 17)), 4),
        ("span 0", with(|site| reshape(site, 8, 0, 2)), 6),
        ("span 1", ring(12, 4, 5, 9), 0),
        ("span 255 below H", slow(300), 0),
        ("span 255 at H", slow(255), 0),
        ("span 255 above H", slow(254), 0),
    ]
}

fn sites() -> Vec<(&'static str, Site, u8)> {
    sizes().into_iter().chain(values()).collect()
}

/// A hall on which calls are made and compared.
struct Hall<'a> {
    name: &'a str,
    site: &'a Site,
    file: Vec<u8>,
    board: Vec<u8>,
    /// Follows the calls from an opened board.
    model: Option<PlainBoard>,
    rng: Rng,
    met: Met,
    /// The motions of granted routes.
    moves: BTreeSet<u16>,
}

impl Hall<'_> {
    fn new<'a>(name: &'a str, site: &'a Site) -> Hall<'a> {
        Hall { name, site, file: encode(site), board: vec![7; site.board_len()], model: None, rng: Rng::new(1), met: Met::new(), moves: BTreeSet::new() }
    }

    /// Makes a call with the desk and by the literal reading, compares everything, and leaves the board to the next call. Gives the answer, and the light
    /// of a granted route.
    fn call(&mut self, call: &Call) -> (Answer, Vec<u8>) {
        let mut left = Values::new(&mut self.rng, &self.file, &self.board, call);
        let mut wanted = left.clone();
        let (answer, expected) = (run!(desk, call, &mut left), run!(literal_desk, call, &mut wanted));
        assert_eq!(answer, expected, "{}: the desk's answer and the literal one to {call:?}", self.name);
        assert_eq!(left.differs(&wanted), None, "{}: what {call:?} left", self.name);
        self.met.insert((call.kind(), answer.number));
        self.board = left.board;
        left.bytes.truncate(answer.value as usize);
        if let Some(model) = &mut self.model {
            let said = model_answer(model, call);
            assert!(said.is_none_or(|said| said == (answer, left.bytes.clone())), "{}: the plain board differs on {call:?}", self.name);
            assert!(self.board == model.bytes(), "{}: the plain board after {call:?}", self.name);
        }
        (answer, left.bytes)
    }

    fn number(&mut self, call: Call) -> u8 {
        self.call(&call).0.number
    }
}

/// What the plain board says to a call, if it is one of 'Lists of calls' of docs/FORMATS.md.
fn model_answer(model: &mut PlainBoard, call: &Call) -> Option<(Answer, Vec<u8>)> {
    Some(match *call {
        Call::Open | Call::Interval { .. } | Call::Draw { .. } => return None,
        Call::Route { tug, start, tick, goal, dwell, out, work } => model.route(tug, start, tick, goal, dwell, out, work),
        Call::Audit { ref light } => (model.audit(light), vec![]),
        Call::Post { ref light } => (model.post(light), vec![]),
        Call::Close { holder, cell, first, last } => (model.close(holder, cell, first, last), vec![]),
        Call::Withdraw { holder } => (model.withdraw(holder), vec![]),
    })
}

/// A route with areas a little longer than it needs.
fn route(site: &Site, tug: u8, start: usize, tick: usize, goal: usize, dwell: usize) -> Call {
    let [start, tick, goal, dwell] = [start, tick, goal, dwell].map(|n| n as u16);
    Call::Route { tug, start, tick, goal, dwell, out: site.output_len() + 3, work: site.states.len() * (site.h + 1) + 2 }
}

fn close(holder: u8, cell: usize, first: usize, last: usize) -> Call {
    Call::Close { holder, cell: cell as u16, first: first as u16, last: last as u16 }
}

/// Each call once. The site may be a refused one.
fn every_call(site: &Site) -> [Call; 8] {
    let light = Light { edition: 0, tug: 7, start: 0, tick: 0, goal: 0, arrival: 0, dwell: 0, steps: vec![] }.encode();
    [
        Call::Open,
        Call::Interval { cell: 0, out: site.h + 2 },
        route(site, 7, 0, 0, 0, 0),
        Call::Audit { light: light.clone() },
        Call::Post { light: light.clone() },
        close(200, 0, 0, 0),
        Call::Withdraw { holder: 7 },
        Call::Draw { light, step: 0, frame: 0 },
    ]
}

/// Routes between the first and the last state, early and late, with short and long dwells; then one past each limit, and areas that just suffice or not.
fn routes(site: &Site) -> Vec<Call> {
    let (h, last, words) = (site.h, site.states.len() - 1, site.states.len() * (site.h + 1));
    let mut all = vec![];
    for (start, goal) in [(0, 0), (0, last), (last, 0), (last, last)] {
        let stays = [(0, 0), (0, 1), (0, h - 1), (0, h), (h - 1, 0), (h - 1, 1), (h - 1, 2), (h, 0), (h, 1)];
        all.extend(stays.map(|(tick, dwell)| route(site, 1, start, tick, goal, dwell)));
    }
    all.extend([0, 199, 200, 255].map(|tug| route(site, tug, 0, h, 0, 0)));
    all.extend([1_000, 1_001, 65_535].map(|dwell| route(site, 1, last, h, last, dwell)));
    for past in [1, 256, 65_535 - h.max(last)] {
        all.extend([route(site, 1, last + past, 0, 0, 0), route(site, 1, 0, h + past, 0, 0), route(site, 1, 0, 0, last + past, 0)]);
    }
    all.extend((1..last).filter(|&state| !site.standing(state)).take(1).map(|state| route(site, 1, 0, 0, state, 0)));
    for (out, work) in [(site.output_len(), words), (site.output_len() - 1, words), (site.output_len(), words - 1), (0, words), (site.output_len(), 0)] {
        all.push(Call::Route { tug: 1, start: 0, tick: h as u16, goal: 0, dwell: 0, out, work });
    }
    all
}

/// So many steps of one tick each, from a state on: the motion that has the state's own number, or a wait before it where a tug may stand.
fn walk(site: &Site, start: usize, steps: usize, waits: bool) -> Light {
    let (mut state, mut all) = (start, vec![]);
    while all.len() < steps {
        if waits && site.standing(state) && !matches!(all.last(), Some(Step::Wait(_))) {
            all.push(Step::Wait(1));
        } else {
            all.push(Step::Move(state as u16));
            state = site.motions.get(state).map_or(state, |motion| motion.to as usize);
        }
    }
    Light { edition: 0, tug: 1, start: start as u16, tick: 0, goal: state as u16, arrival: steps.min(site.h) as u16, dwell: 0, steps: all }
}

/// Lights at the limits and one past them: of numbers, of waits and dwells, of the motions, and of the number of steps.
fn lights(site: &Site) -> Vec<Light> {
    let (h, last, m) = (site.h as u16, site.states.len() as u16 - 1, site.motions.len() as u16);
    let none = Light { edition: 0, tug: 1, start: last, tick: 0, goal: last, arrival: 0, dwell: 0, steps: vec![] };
    let mut all = vec![none.clone(), Light { start: last + 1, ..none.clone() }, Light { goal: last + 1, ..none.clone() }];
    all.extend([0, 199, 200, 255].map(|tug| Light { tug, ..none.clone() }));
    all.extend([h - 1, h, h + 1, 65_535].map(|tick| Light { tick, arrival: tick.min(h), ..none.clone() }));
    all.extend([h + 1, 65_535].map(|arrival| Light { arrival, ..none.clone() }));
    all.extend([h - 1, h, h + 1, 1_000, 1_001, 65_535].map(|dwell| Light { dwell, ..none.clone() }));
    all.extend([0, 1, h - 1, h, h + 1, 65_535].map(|n| Light { arrival: n.min(h), steps: vec![Step::Wait(n)], ..none.clone() }));
    all.extend([0, m / 2, m.saturating_sub(1), m, 65_535].map(|k| {
        let motion = site.motions.get(k as usize).cloned().unwrap_or(Motion { from: 0, to: 0, d: 0, sweeps: vec![] });
        let tick = h.saturating_sub(motion.d as u16);
        Light { start: motion.from, tick, goal: motion.to, arrival: h, steps: vec![Step::Move(k)], ..none.clone() }
    }));
    for (waits, steps) in [false, true].into_iter().flat_map(|waits| [site.h, site.h + 1, 999, 1_000, 1_001].map(|steps| (waits, steps))) {
        let mut walks = (0..site.states.len()).map(|start| walk(site, start, steps, waits));
        all.extend(walks.find(|light| site.standing(light.goal as usize)));
    }
    all
}

impl Hall<'_> {
    /// A route; if it is granted its light is posted, and its tug withdrawn again.
    fn trip(&mut self, call: &Call) {
        let (answer, light) = self.call(call);
        if answer.number == 0 {
            let read = Light::read(&light).unwrap();
            self.moves.extend(read.steps.iter().filter_map(|step| if let Step::Move(k) = step { Some(*k) } else { None }));
            self.draws(&light, read.steps.len());
            for call in [Call::Audit { light: light.clone() }, Call::Post { light }, Call::Withdraw { holder: read.tug }] {
                assert_eq!(self.number(call), 0, "{}: a granted light", self.name);
            }
        }
    }

    /// A light is drawn at its first steps, its last one and behind it, at the first frames and the last ones and past these. Gives its numbers.
    fn draws(&mut self, light: &[u8], steps: usize) -> BTreeSet<u8> {
        let mut numbers = BTreeSet::new();
        let last = steps.saturating_sub(1);
        for (step, frame) in [(0, 0), (1, 16), (last, 1), (last, 15), (steps, 16), (65_535, 0), (0, 17), (last, 255)] {
            let number = self.number(Call::Draw { light: light.to_vec(), step: step as u16, frame });
            assert!(number != 0 || (frame <= 16 && !self.site.centres.is_empty()), "{}: {number} for step {step}, frame {frame}", self.name);
            numbers.insert(number);
        }
        numbers
    }

    /// Every light is audited and posted, and its tug withdrawn again.
    fn lights(&mut self) {
        for mut light in lights(self.site) {
            light.edition = u32::from_be_bytes(self.board[..4].try_into().unwrap());
            let bytes = light.encode();
            let number = self.number(Call::Audit { light: bytes.clone() });
            assert_eq!(self.number(Call::Post { light: bytes.clone() }), number);
            let withdrawn = self.number(Call::Withdraw { holder: light.tug });
            assert_eq!(withdrawn == 0, number == 0);
            // A draw does not ask for the tug, and not what the plan is; all else is as an audit has it.
            let tug = (1..=199).contains(&light.tug);
            let drawn = self.draws(&bytes, light.steps.len());
            let wanted = match number {
                8 | 10 => [number].into(),
                _ if tug && self.site.centres.is_empty() => [20].into(),
                _ if tug => [0, 20].into(),
                _ => drawn.clone(),
            };
            assert_eq!(drawn, wanted, "{}: draws of {light:?}", self.name);
            if light.steps.len() > 1_000 {
                assert_eq!(number, 8, "{}: a light of {} bytes", self.name, bytes.len());
            }
            // The first motions of a site with 1,000 ticks have span 1.
            if light.steps.len() == 1_000 && self.site.h == 1_000 {
                assert_eq!((number, bytes.len()), (0, 5_018), "{}: the longest light", self.name);
            }
        }
    }

    /// A granted light, posted, then in the way of others; then closures, up to the whole of the last cell.
    fn bookings(&mut self) {
        let (site, h, c, last) = (self.site, self.site.h, self.site.c, self.site.states.len() - 1);
        let (answer, light) = self.call(&route(site, 199, 0, 0, 0, h));
        assert_eq!((answer.number, answer.arrival), (0, 0), "{}", self.name);
        let lit = |number| [(Call::Audit { light: light.clone() }, number), (Call::Post { light: light.clone() }, number)];
        let held = [(route(site, 199, 0, 0, 0, 0), 12), (route(site, 1, 0, h, 0, 0), 18), (close(200, site.cell(0), h, h), 17)];
        let cleared = [(Call::Withdraw { holder: 199 }, 0), (Call::Withdraw { holder: 199 }, 13)];
        let ranges = [(199, 0, 0, 0, 9), (255, 0, 0, 0, 9), (200, c, 0, h, 10), (200, 0, 0, h + 1, 10), (200, 0, h + 1, h + 1, 10), (200, 0, 1, 0, 10)];
        let ranges = ranges.map(|(holder, cell, first, last, number)| (close(holder, cell, first, last), number));
        let closed = [(close(254, c - 1, 0, h), 0), (close(254, 0, 0, 0), 12), (close(200, c - 1, h, h), 17), (route(site, 1, last, 0, last, 0), 18)];
        let opened = [(Call::Withdraw { holder: 254 }, 0), (close(200, c - 1, h, h), 0), (close(201, c - 1, 0, h - 1), 0)];
        let all = lit(0).into_iter().chain(lit(12)).chain(held).chain(cleared).chain(lit(16)).chain(ranges).chain(closed).chain(opened);
        for (call, number) in all {
            assert_eq!(self.number(call.clone()), number, "{}: {call:?}", self.name);
        }
        self.intervals(0);
    }

    /// The last edition and the one before it, which a list of calls does not reach.
    fn editions(&mut self) {
        self.model = None;
        self.board.fill(0);
        self.board[..4].fill(255);
        self.board[3] = 254;
        let (site, last) = (self.site, self.site.states.len() - 1);
        let posted = self.call(&route(site, 1, last, 0, last, 0)).1;
        assert_eq!(self.number(Call::Post { light: posted }), 0, "{}", self.name);
        assert_eq!(self.board[..4], [255; 4], "{}", self.name);
        // Granted or not: 15 comes before what the plan is.
        let light = Light { edition: u32::MAX, tug: 2, start: last as u16, tick: 1, goal: last as u16, arrival: 1, dwell: 0, steps: vec![] }.encode();
        let calls = [Call::Audit { light: light.clone() }, Call::Post { light }, close(200, 0, 1, 1), Call::Withdraw { holder: 1 }];
        for call in calls {
            assert_eq!(self.number(call), 15, "{}", self.name);
        }
    }

    /// The intervals of the first and the last cell, the last of which has so many; and what is one past a limit.
    fn intervals(&mut self, count: u32) {
        let (c, out) = (self.site.c as u16, self.site.h + 2);
        self.number(Call::Interval { cell: 0, out });
        assert_eq!(self.call(&Call::Interval { cell: c - 1, out: out + 5 }).0, Answer { number: 0, value: count, arrival: 0 }, "{}", self.name);
        assert_eq!(self.number(Call::Interval { cell: c - 1, out: out - 1 }), 14);
        assert_eq!(self.number(Call::Interval { cell: c, out }), 10);
        assert_eq!(self.number(Call::Interval { cell: c, out: 0 }), 10);
    }

    /// Every call with a board on one that is a byte too short and a byte too long.
    fn board_lengths(&mut self) {
        let board = self.board.clone();
        for len in [0, 4, board.len() - 1, board.len() + 1] {
            for call in every_call(self.site).into_iter().filter(|call| !matches!(call, Call::Draw { .. })) {
                self.board.resize(len, 0);
                assert_eq!(self.number(call), 7, "{}: a board of {len} bytes", self.name);
            }
        }
        self.board = board;
    }

    fn tour(&mut self) {
        self.board_lengths();
        assert_eq!(self.number(Call::Open), 0, "{}", self.name);
        self.model = Some(PlainBoard::new(self.site.clone()));
        self.intervals(1);
        for call in routes(self.site) {
            self.trip(&call);
        }
        self.lights();
        self.bookings();
        self.editions();
    }

    /// Seeded calls on boards with any bytes.
    fn any_boards(&mut self, boards: usize, calls: usize) {
        self.model = None;
        let caller = Caller { site: self.site, file: &self.file.clone(), lights: vec![] };
        for _ in 0..boards {
            self.board = gen::board(&mut self.rng, self.site);
            for _ in 0..calls {
                let call = caller.any(&mut self.rng, &self.board);
                self.call(&call);
            }
            for _ in 0..4 {
                let draw = caller.draw(&mut self.rng, &self.board);
                self.call(&draw);
            }
        }
    }
}

/// Fails if a test has not met every number of each call but those of files and board lengths, and a draw's 0 on a site without centres.
fn all_met(met: &Met, centres: bool) {
    let drawn = (7, 0);
    for pair in possible().into_iter().filter(|pair| !(1..=7).contains(&pair.1) && (centres || *pair != drawn)) {
        assert!(met.contains(&pair), "no {} answers {}", CALLS[pair.0], pair.1);
    }
}

#[test]
fn each_limit() {
    let mut met = Met::new();
    for (name, site, number) in sites() {
        let mut hall = Hall::new(name, &site);
        assert_eq!(Site::read(&hall.file).err().unwrap_or(0), number, "{name}: the literal reading");
        if number == 0 {
            hall.tour();
        } else {
            for call in every_call(&site) {
                assert_eq!(hall.number(call), number, "{name}");
            }
        }
        let last_needed = ["4,000 motions", "1 sweep", "span 255 below H", "span 255 at H"].contains(&name);
        assert!(!last_needed || hall.moves.contains(&(site.motions.len() as u16 - 1)), "{name}: no route takes the last motion");
        met.extend(hall.met);
    }
    all_met(&met, true);
}

/// Every margin that a byte can name.
#[test]
fn margins() {
    for margin in 0..=255 {
        let site = apart(margin, 12);
        let mut hall = Hall::new("a margin", &site);
        let number = if margin <= MAX_MARGIN { 0 } else { 3 };
        assert_eq!(hall.number(Call::Open), number, "margin {margin}");
    }
}

/// A head of any other length, also with the low byte of the right one: 3 from every call.
#[test]
fn head_lengths() {
    let site = ring(12, 4, 5, 9);
    for len in (0..HEAD_LEN).chain([HEAD_LEN + 1, HEAD_LEN + 2, 256 + HEAD_LEN]) {
        let name = format!("a head of {len} bytes");
        let mut hall = Hall::new(&name, &site);
        hall.file = with_head(&hall.file, len).unwrap();
        for call in every_call(&site) {
            assert_eq!(hall.number(call), 3, "{name}");
        }
    }
}

/// With two bytes each, H and C could ask for a board of 4 GiB. The header says that every call refuses such a head without a board, and what it refuses
/// it for is what it would be with one.
#[test]
fn heads_that_need_no_board() {
    for (h, c) in [(1_001, 1), (1, 1_001), (65_535, 1_000), (1_000, 65_535), (65_535, 65_535)] {
        let small = ring(1, 1, 1, 0);
        let mut hall = Hall::new("a faulty head", &small);
        hall.board.clear();
        let file = encode(&Site { h, c, ..small.clone() });
        let too_long = [&file[..], &[0; 65_536]].concat();
        for (file, number) in [(file.clone(), 3), (file[..file.len() - 1].to_vec(), 2), (file[..9].to_vec(), 2), (too_long, 1)] {
            hall.file = file;
            for call in every_call(&small) {
                assert_eq!(hall.number(call), number, "H {h}, C {c}, {} bytes", hall.file.len());
            }
        }
    }
}

#[test]
fn any_boards_at_each_limit() {
    let mut met = Met::new();
    for (name, site, _) in sites().into_iter().filter(|site| site.2 == 0) {
        let mut hall = Hall::new(name, &site);
        hall.any_boards(20, 8);
        met.extend(hall.met);
    }
    all_met(&met, true);
}

/// As many cells as a site may have, 1,000 ticks and the largest margin. All motions of a ring of so many states would take too many bytes, so those behind
/// the first round stay within a cell. Some motions have the longest span and the most sweeps, the last one too.
#[cfg(not(feature = "standin"))]
fn largest(s: usize, len: usize, motions: usize, centres: usize) -> Site {
    const CELLS: usize = 1_000;
    let mut site = drawn(Site { margin: MAX_MARGIN, ..ring(1_000, CELLS, s, s) }, centres);
    let shared = s - 1 - CELLS;
    for k in 0..motions - s {
        let (low, cell) = (k / 2 % shared, (k / 2 % shared) as u16);
        let (from, to) = if k % 2 == 0 { (low, low + CELLS) } else { (low + CELLS, low) };
        let d = 1 + (k / (2 * shared)) as u8;
        site.motions.push(Motion { from: from as u16, to: to as u16, d, sweeps: vec![Sweep { cell, a: 0, b: d }] });
    }
    need_last(&mut site);
    for k in (s..motions).step_by(97).chain([motions - 1]) {
        reshape(&mut site, k, 255, MAX_SWEEPS);
    }
    filled(site, len)
}

/// A site of 1,280 states can't have 65,536 bytes, as its head, states and motions leave two bytes more than a multiple of 4; one of 1,279 can. With a centre
/// for each cell it has fewer motions. The simple desk takes long here, and reads a site as the literal reading does.
#[test]
#[cfg(not(feature = "standin"))]
fn all_limits_at_once() {
    for (s, len, motions, centres) in [(1_280, 65_534, 4_000, 0), (1_279, 65_536, 4_000, 0), (1_279, 65_536, 3_500, 1_000)] {
        let site = largest(s, len, motions, centres);
        let name = format!("{s} states, {len} bytes and {centres} centres");
        let mut hall = Hall::new(&name, &site);
        hall.tour();
        assert!(hall.moves.contains(&(motions as u16 - 1)), "{name}: no route takes the last motion");
        hall.any_boards(12, 8);
        all_met(&hall.met, centres > 0);
    }
}

#[test]
#[cfg(not(feature = "standin"))]
fn large_sites() {
    let mut met = Met::new();
    for seed in 1..=8 {
        let site = gen::site(&mut Rng::new(seed), gen::Size::Large);
        let name = format!("a large site of seed {seed}");
        let mut hall = Hall::new(&name, &site);
        hall.any_boards(2, 12);
        met.extend(hall.met);
    }
    assert!(met.contains(&(2, 0)) && met.contains(&(2, 18)) && met.contains(&(4, 0)), "{met:?}");
}
