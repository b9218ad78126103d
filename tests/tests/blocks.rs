//! Routes around the borders of the blocks of 256 ticks in which the desk searches: the desk against the plain program and, on a part of them, the simple
//! one (`src/pull.rs`), number, values and every lent byte. Routes with a margin are also compared with those without one, on a board where all that is not
//! free for a tug is held. It counts what is special at the borders, and fails if something of it is rare.
//!
//! ROUTES sets the number of routes (100,000) and SEED the seed (1): `ROUTES=1000000 SEED=7 cargo test --release --test blocks`.

use dispatch_tests::desk::{self, Answer};
use dispatch_tests::gen::{self, motion_between, Rng};
use dispatch_tests::literal::{encode, Light, Site, State, Step, MARGIN_AT, MAX_DWELL, MAX_H, MAX_MARGIN, MAX_STATES};
#[cfg(not(feature = "standin"))]
use dispatch_tests::worst;
use dispatch_tests::{plain, pull};
use std::collections::BTreeMap;
use std::io::Write;
use std::time::Instant;

const BLOCK: usize = 256;
/// The ticks of a word.
const WORD: usize = 64;
const TUG: u8 = 7;

/// How often each thing that is counted must occur in a run that is long enough.
const OFTEN: usize = 300;

/// Ticks around the borders, each of which must often be an arrival, with no dwell and with one.
const AROUND: [usize; 12] = [254, 255, 256, 257, 510, 511, 512, 513, 766, 767, 768, 769];
/// The largest horizons. They must often be an arrival too.
const LAST: [usize; 2] = [999, 1_000];
/// Margins that must often decide a route.
const MARGINS: [usize; 3] = [1, 2, MAX_MARGIN];

/// What can happen at a border. A step or a dwell is across a border if it begins before the border and ends there or later.
#[derive(Clone, Copy, PartialEq, Eq, PartialOrd, Ord, Debug)]
enum Seen {
    /// A granted route with dwell 0, and its arrival.
    Arrival(usize),
    /// A granted route with a dwell, and its arrival.
    Unloading(usize),
    /// A route that is granted, or refused with 18, and H.
    Granted(usize),
    Refused(usize),
    /// A granted route: the block of its start and the one of its arrival, counted from 0.
    Blocks(usize, usize),
    /// A light with a wait across a border; with one of 200 ticks or more.
    Wait,
    LongWait,
    /// A light with a motion across a border; with one of 200 ticks or more; with one that ends just there.
    Move,
    LongMove,
    MoveToBorder,
    /// A light with a motion of 200 ticks or more across a border, one of whose sweeps lasts as long.
    LongSweep,
    /// A granted route with a dwell across a border.
    Dwell,
    /// The tug could be at its goal in an earlier block, but not unload then.
    Later,
    /// A route that is refused with 18 only for its dwell.
    NoRoom,
    /// A route that is answered in another way without its margin.
    ByMargin(usize),
    /// A route that is answered in another way if the margin does not reach across the borders between so many ticks.
    AcrossBorders(usize),
}

/// All but those with a number.
const OTHERS: [Seen; 9] = {
    use Seen::*;
    [Wait, LongWait, Move, LongMove, MoveToBorder, LongSweep, Dwell, Later, NoRoom]
};

/// A tick next to a border or to H, or sometimes any tick.
fn edge(rng: &mut Rng, h: usize) -> usize {
    match rng.below(12) {
        0 => rng.below(h + 1),
        1..=3 => h - rng.below(3),
        _ => (BLOCK * rng.range(1, (h + 2) / BLOCK) + rng.below(5) - 2).min(h),
    }
}

/// A span: a long one with a chance of `long` in 100, else mostly a short one.
fn span(rng: &mut Rng, long: usize) -> usize {
    if rng.percent(long) {
        return if rng.percent(50) { rng.range(200, 255) } else { rng.pick(&[63, 64, 65, 127, 128, 129, 254, 255]) };
    }
    if rng.percent(10) {
        return rng.range(5, 60);
    }
    rng.range(1, 4)
}

/// A site of modest size: a ring through all states, and motions between any two. In most the last state has a cell of its own, the last one, which
/// only motions from or to it use.
fn modest_site(rng: &mut Rng) -> Site {
    let h = if rng.percent(60) { rng.pick(&LAST) } else { rng.pick(&AROUND) };
    let (c, s) = if rng.percent(90) { (rng.range(3, 8), rng.range(3, 12)) } else { (rng.range(10, 40), rng.range(20, 80)) };
    let (rolling, long, dock) = (rng.pick(&[20, 50, 80]), rng.pick(&[5, 20, 80]), rng.percent(70));
    let cells = if dock { c - 1 } else { c };
    let mut states: Vec<State> = (1..s).map(|_| State { cell: rng.below(cells) as u16, speed: rng.percent(rolling) as u8 }).collect();
    states.push(State { cell: (c - 1) as u16, speed: 0 });
    let mut motions = Vec::new();
    for k in 0..rng.range(s, 4 * s) {
        let from = k % s;
        let to = (from + if k < s { 1 } else { rng.range(1, s - 1) }) % s;
        let (d, sweeps) = (span(rng, long), rng.pick(&[1, 2, 2, 2, 3, 4, 16]));
        motions.push(motion_between(rng, cells, &states, from, to, d, sweeps));
    }
    for i in (1..motions.len()).rev() {
        motions.swap(i, rng.below(i + 1));
    }
    let margin = if rng.percent(40) { 0 } else { gen::any_margin(rng) };
    gen::perhaps_centres(rng, Site { h, c, margin, states, motions, centres: vec![] })
}

/// A route call on a board.
#[derive(Debug)]
struct Ask {
    start: usize,
    tick: usize,
    goal: usize,
    dwell: usize,
}

/// A board with some runs that are held, often around a border or as far from one as the margin reaches. No byte is the tug's.
fn booked(rng: &mut Rng, site: &Site) -> Vec<u8> {
    let ticks = site.h + 1;
    let mut board = vec![0; site.board_len()];
    board[..4].copy_from_slice(&(rng.draw() as u32).to_be_bytes());
    for _ in 0..rng.pick(&[0, 1, 4, 20, 60]) {
        let (cell, holder) = (rng.below(site.c), rng.pick(&[1, 8, 199, 200, 254, 255]));
        let away = if rng.percent(50) { rng.range(0, site.margin + 1) } else { 0 };
        let first = match rng.below(4) {
            0 => edge(rng, site.h).saturating_sub(away),
            1 => (edge(rng, site.h) + away).min(site.h),
            _ => rng.below(ticks),
        };
        let last = (first + rng.pick(&[0, 0, 1, 3, 10])).min(site.h);
        board[4 + cell * ticks..][first..=last].fill(holder);
    }
    board
}

/// The board on which every pair within the margin of a held one is held too, if the margin counts from the held tick to that of the pair.
fn with_margins_held(site: &Site, board: &[u8], counts: impl Fn(usize, usize) -> bool) -> Vec<u8> {
    let mut wider = board.to_vec();
    for (cell, ticks) in board[4..].chunks(site.h + 1).enumerate() {
        for held in (0..=site.h).filter(|&tick| ticks[tick] != 0) {
            site.around(held).filter(|&tick| counts(held, tick)).for_each(|tick| row(site, &mut wider, cell)[tick] = 200);
        }
    }
    wider
}

fn row<'a>(site: &Site, board: &'a mut [u8], cell: usize) -> &'a mut [u8] {
    &mut board[4 + cell * (site.h + 1)..][..site.h + 1]
}

/// A start tick up to another tick: any, short before it, or next to a border.
fn start_tick(rng: &mut Rng, until: usize) -> usize {
    match rng.below(4) {
        0 => rng.below(until + 1),
        1 => until - rng.below(until.min(300) + 1),
        2 => edge(rng, until.max(BLOCK)).min(until),
        _ => rng.below(until.min(20) + 1),
    }
}

fn dwell(rng: &mut Rng, left: usize) -> usize {
    match rng.below(12) {
        0..=5 => 0,
        6..=8 => rng.range(1, 9).min(left.max(1)),
        9 => rng.range(0, left),
        10 => (left + 1).saturating_sub(rng.below(3)),
        _ => rng.pick(&[255, 256, 257, MAX_DWELL as usize]),
    }
}

/// A row that is held up to a tick. With a dwell it may have gaps, in most of which a tug can't unload.
fn hold_up_to(rng: &mut Rng, row: &mut [u8], until: usize, dwell: usize) {
    row[..until].fill(200);
    if rng.percent(70) {
        row[until..].fill(0);
    }
    let mut at = 0;
    while dwell > 0 && rng.percent(90) && at + 1 < until {
        let gap = rng.range(1, dwell.min(40)).min(until - 1 - at);
        row[at..at + gap].fill(0);
        at += gap + rng.range(1, 20);
    }
}

/// A route that should arrive about an edge, and a board for it.
fn ask(rng: &mut Rng, site: &Site) -> (Vec<u8>, Ask) {
    let s = site.states.len();
    let goals: Vec<usize> = (0..s).filter(|&state| site.standing(state)).collect();
    let mut board = booked(rng, site);
    let until = edge(rng, site.h);
    let goal = if rng.percent(50) { s - 1 } else { rng.pick(&goals) };
    let mut ask = Ask { start: rng.below(s), tick: start_tick(rng, until), goal, dwell: dwell(rng, site.h - until) };
    let early = until.saturating_sub(rng.pick(&[0, 0, 0, 1, 2, 3]));
    match rng.below(10) {
        0..=5 => hold_goal(rng, site, &mut board, &mut ask, until),
        // The tug has to wait at its start.
        6 => {
            ask.start = rng.pick(&goals);
            for cell in (0..site.c).filter(|&cell| cell != site.cell(ask.start)) {
                row(site, &mut board, cell)[..early].fill(201);
            }
            row(site, &mut board, site.cell(ask.start)).fill(0);
        }
        // The goal is not free from there on.
        7 => row(site, &mut board, site.cell(ask.goal))[early..].fill(202),
        _ => {}
    }
    (board, ask)
}

/// Holds the goal's cell so long that the tug arrives at a tick, if that can be. Where it is held longer, a tug arrives no earlier.
fn hold_goal(rng: &mut Rng, site: &Site, board: &mut [u8], ask: &mut Ask, until: usize) {
    for _ in 0..4 {
        if site.cell(ask.start) == site.cell(ask.goal) {
            ask.start = rng.below(site.states.len());
        }
    }
    let (file, cell) = (encode(site), site.cell(ask.goal));
    let mut areas = (vec![0; site.output_len()], vec![0; site.states.len() * (site.h + 1)]);
    hold_up_to(rng, row(site, board, cell), until, ask.dwell);
    let held = row(site, board, cell).to_vec();
    // The last motion may use the cell for some ticks before the tug arrives.
    let (mut low, mut end, mut high) = (0, until, until);
    while low <= high {
        let ticks = row(site, board, cell);
        ticks.copy_from_slice(&held);
        ticks[end..until].fill(0);
        let answer = call(plain::route, &file, board, ask, &mut areas);
        match answer.arrival as usize {
            arrival if answer.number == 0 && arrival == until => return,
            arrival if answer.number == 0 && arrival < until => low = end + 1,
            _ if end == 0 => return,
            _ => high = end - 1,
        }
        end = (low + high) / 2;
    }
}

type Route = fn(&[u8], &[u8], u8, u16, u16, u16, u16, &mut [u8], &mut [u32]) -> Answer;

/// The areas that a route writes to.
type Areas = (Vec<u8>, Vec<u32>);

fn call(route: Route, file: &[u8], board: &[u8], ask: &Ask, areas: &mut Areas) -> Answer {
    let [start, tick, goal, dwell] = [ask.start, ask.tick, ask.goal, ask.dwell].map(|n| n as u16);
    route(file, board, TUG, start, tick, goal, dwell, &mut areas.0, &mut areas.1)
}

/// A site's file, but with margin 0.
fn without_margin(file: &[u8]) -> Vec<u8> {
    let mut changed = file.to_vec();
    changed[MARGIN_AT] = 0;
    changed
}

fn border_between(first: usize, last: usize) -> bool {
    first / BLOCK < last / BLOCK
}

struct Tally {
    seed: u64,
    routes: usize,
    /// Any bytes and words, which are in the areas before a call.
    garbage: Areas,
    seen: BTreeMap<Seen, usize>,
}

impl Tally {
    fn new(seed: u64) -> Tally {
        let mut rng = Rng::new(!seed);
        let garbage = (rng.bytes(18 + 5 * MAX_H + 8), (0..MAX_STATES * (MAX_H + 1) + 8).map(|_| rng.draw() as u32).collect());
        Tally { seed, routes: 0, garbage, seen: BTreeMap::new() }
    }

    /// Areas of the lengths that a site needs, or a little longer.
    fn areas(&self, site: &Site) -> Areas {
        let more = self.routes % 3;
        (self.garbage.0[..site.output_len() + more].to_vec(), self.garbage.1[..site.states.len() * (site.h + 1) + more].to_vec())
    }

    /// Makes a call with the desk and the plain program, and one in so many with the simple program too. Everything must be equal.
    fn compare(&mut self, site: &Site, file: &[u8], board: &[u8], ask: &Ask, one_in: usize) {
        let before = self.areas(site);
        let (mut left, mut wanted) = (before.clone(), before.clone());
        let answer = call(desk::route, file, board, ask, &mut left);
        let expected = call(plain::route, file, board, ask, &mut wanted);
        let place = || format!("seed {}, route {}, H {}: {ask:?}", self.seed, self.routes, site.h);
        assert!(answer == expected, "{}\nthe desk answers {answer:?}, the plain program {expected:?}", place());
        assert!(left.0 == wanted.0, "{}\nthe output bytes differ", place());
        assert!(left.1 == wanted.1, "{}\nthe working words differ", place());
        if self.routes % one_in == 0 {
            let mut simple = before.clone();
            let said = call(pull::route, file, board, ask, &mut simple);
            assert!(said == expected && simple == wanted, "{}\nthe simple program answers {said:?} or leaves other areas", place());
        }
        if site.margin > 0 && self.routes % 2 == 0 {
            let mut same = before.clone();
            let said = call(desk::route, &without_margin(file), &with_margins_held(site, board, |_, _| true), ask, &mut same);
            assert!(said == expected && same == wanted, "{}\nthe desk answers {said:?} without the margin where it is held, or leaves other areas", place());
        }
        self.routes += 1;
        for seen in self.what(site, file, board, ask, answer, &left.0) {
            *self.seen.entry(seen).or_default() += 1;
        }
    }

    /// What a route shows of the margin.
    fn by_margin(&self, site: &Site, file: &[u8], board: &[u8], ask: &Ask, answer: Answer) -> Vec<Seen> {
        let file = without_margin(file);
        let if_it_counts = |counts: &dyn Fn(usize, usize) -> bool| {
            let board = with_margins_held(site, board, counts);
            call(plain::route, &file, &board, ask, &mut self.areas(site))
        };
        let across = |ticks: usize| if_it_counts(&|held, tick| held / ticks == tick / ticks) != answer;
        let mut all = vec![(Seen::ByMargin(site.margin), if_it_counts(&|_, _| false) != answer)];
        all.extend([WORD, BLOCK].map(|ticks| (Seen::AcrossBorders(ticks), across(ticks))));
        all.into_iter().filter(|seen| seen.1).map(|seen| seen.0).collect()
    }

    /// What a route shows, the granted ones by their lights.
    fn what(&self, site: &Site, file: &[u8], board: &[u8], ask: &Ask, answer: Answer, out: &[u8]) -> Vec<Seen> {
        let without = || call(plain::route, file, board, &Ask { dwell: 0, ..*ask }, &mut self.areas(site));
        if answer.number != 0 && answer.number != 18 {
            return vec![];
        }
        let mut all = if site.margin > 0 { self.by_margin(site, file, board, ask, answer) } else { vec![] };
        if answer.number == 18 {
            let no_room = ask.dwell > 0 && without().number == 0;
            all.extend([Some(Seen::Refused(site.h)), no_room.then_some(Seen::NoRoom)].into_iter().flatten());
            return all;
        }
        let arrival = answer.arrival as usize;
        let light = Light::read(&out[..answer.value as usize]).unwrap();
        all.extend(steps_seen(site, &light));
        all.extend([Seen::Granted(site.h), Seen::Blocks(ask.tick / BLOCK, arrival / BLOCK)]);
        all.push(if ask.dwell == 0 { Seen::Arrival(arrival) } else { Seen::Unloading(arrival) });
        if border_between(arrival, arrival + ask.dwell) {
            all.push(Seen::Dwell);
        }
        if ask.dwell > 0 && border_between(without().arrival as usize, arrival) {
            all.push(Seen::Later);
        }
        all
    }
}

/// What the steps of a light show, each thing once.
fn steps_seen(site: &Site, light: &Light) -> Vec<Seen> {
    let mut all = Vec::new();
    let mut tick = light.tick as usize;
    for step in &light.steps {
        let ticks = match *step {
            Step::Wait(n) => n as usize,
            Step::Move(k) => site.motions[k as usize].d as usize,
        };
        let (across, long) = (border_between(tick, tick + ticks), ticks >= 200);
        tick += ticks;
        match *step {
            Step::Wait(_) => all.extend([(Seen::Wait, across), (Seen::LongWait, across && long)]),
            Step::Move(k) => {
                let sweeps = &site.motions[k as usize].sweeps;
                let whole = sweeps.iter().any(|w| w.a == 0 && w.b as usize == ticks);
                all.extend([(Seen::Move, across), (Seen::LongMove, across && long), (Seen::LongSweep, across && long && whole)]);
                all.push((Seen::MoveToBorder, tick % BLOCK == 0));
            }
        }
    }
    let mut seen: Vec<Seen> = all.into_iter().filter(|seen| seen.1).map(|seen| seen.0).collect();
    seen.sort_unstable();
    seen.dedup();
    seen
}

fn setting(name: &str, default: u64) -> u64 {
    std::env::var(name).map_or(default, |text| text.parse().unwrap_or_else(|_| panic!("{name} is no number")))
}

/// Everything that must occur often.
fn needed() -> Vec<Seen> {
    let horizons = || AROUND.into_iter().chain(LAST);
    let arrivals = horizons().map(Seen::Arrival).chain(AROUND.map(Seen::Unloading));
    let answers = horizons().flat_map(|h| [Seen::Granted(h), Seen::Refused(h)]);
    let blocks = (0..4).flat_map(|first| (first..4).map(move |last| Seen::Blocks(first, last)));
    let margins = MARGINS.map(Seen::ByMargin).into_iter().chain([WORD, BLOCK].map(Seen::AcrossBorders));
    arrivals.chain(answers).chain(blocks).chain(OTHERS).chain(margins).collect()
}

#[test]
fn routes_around_the_borders() {
    // ./faults runs the simple desk, which is slow, for each of its faults.
    let default = if cfg!(feature = "standin") { 2_000 } else { 100_000 };
    let (routes, seed) = (setting("ROUTES", default) as usize, setting("SEED", 1));
    // Written to the stream itself, so that it shows for passed tests too.
    let mut log = std::io::stderr();
    writeln!(log, "blocks: seed {seed}, {routes} routes").unwrap();
    let began = Instant::now();
    let mut rng = Rng::new(seed);
    let mut tally = Tally::new(seed);
    while tally.routes < routes {
        let site = modest_site(&mut rng);
        let file = encode(&site);
        for _ in 0..16 {
            let (board, ask) = ask(&mut rng, &site);
            tally.compare(&site, &file, &board, &ask, 8);
        }
    }
    writeln!(log, "blocks: {} routes agree in {:.1} s", tally.routes, began.elapsed().as_secs_f64()).unwrap();
    let counts: Vec<String> = needed().iter().map(|seen| format!("{seen:?}:{}", tally.seen.get(seen).unwrap_or(&0))).collect();
    writeln!(log, "blocks: {}", counts.join(" ")).unwrap();
    // A short run may miss the rarest.
    for seen in needed().into_iter().filter(|_| routes >= 100_000) {
        let times = tally.seen.get(&seen).copied().unwrap_or(0);
        assert!(times >= OFTEN, "{seen:?} occurs only {times} times, so the run shows too little");
    }
}

/// The route that a worst site is made for, then others on the same board. The simple desk takes long here.
#[test]
#[cfg(not(feature = "standin"))]
fn worst_sites() {
    let seed = setting("SEED", 1);
    let (mut rng, mut tally) = (Rng::new(seed), Tally::new(seed));
    let [middle, large] = worst::SCALES;
    for kind in 0..4 * worst::KINDS {
        let (margin, scale) = [(0, middle), (1, middle), (MAX_MARGIN, middle), (1, large)][kind / worst::KINDS];
        let (mut site, board) = worst::case(&mut rng, kind % worst::KINDS, scale);
        site.margin = margin;
        let file = encode(&site);
        let last = site.states.len() - 1;
        let goals: Vec<usize> = (0..=last).filter(|&state| site.standing(state)).collect();
        tally.compare(&site, &file, &board, &Ask { start: 0, tick: 0, goal: last, dwell: 0 }, 1);
        for _ in 0..12 {
            let tick = edge(&mut rng, site.h).saturating_sub(rng.pick(&[0, 0, 10, 300]));
            let ask = Ask { start: rng.below(last), tick, goal: rng.pick(&goals), dwell: rng.pick(&[0, 0, 1, 20]) };
            tally.compare(&site, &file, &board, &ask, 4);
        }
    }
    for until in AROUND.into_iter().chain(LAST) {
        let site = worst::zigzag_with_an_end(&mut rng, middle);
        let mut board = vec![0; site.board_len()];
        row(&site, &mut board, 0)[1..until].fill(200);
        for dwell in [0, 1] {
            tally.compare(&site, &encode(&site), &board, &Ask { start: 1, tick: 0, goal: site.states.len() - 1, dwell }, 2);
        }
    }
    let met = |seen: fn(&Seen) -> bool| tally.seen.iter().filter(|(what, _)| seen(what)).map(|(_, times)| times).sum::<usize>();
    let (granted, refused) = (met(|seen| matches!(seen, Seen::Granted(_))), met(|seen| matches!(seen, Seen::Refused(_))));
    assert!(granted >= 50 && refused >= 50, "{granted} granted, {refused} refused");
}
