//! An independent program for the eight calls on a site, over the bytes themselves and made fast.
//!
//! Route searches timestep by timestep: tick by tick, each pair of a state and a tick is tried at most once,
//! and the search stops at the arrival, the first tick at which the goal is reached and the tug can unload.
//! A set of states is a few words of bits, so the waits of a tick are a few word operations. Other pairs are found by the motions
//! from the states reached (push) while these are few, and by the motions that lead to the states in question (pull)
//! while many are reached. Whether a motion may start at a tick is worked out for 256 ticks at a time, when first asked.
//!
//! `pull` reads and checks a site file with what this program has for it.

use crate::desk::{Answer, Drawn, OFF_FLOOR, ROLLING, STANDING};
use std::cell::RefCell;

const MAX_SITE: usize = 65_536;
const MAX_H: usize = 1_000;
const MAX_CELLS: usize = 1_000;
const MAX_STATES: usize = 1_280;
const MAX_MOTIONS: usize = 4_000;
const MAX_SWEEPS: usize = 16;
const MAX_MARGIN: usize = 20;
const MAX_LIGHT: usize = 5_018;
const MAX_DWELL: usize = 1_000;
/// A light's head: tag, length, and a value of 15 bytes.
const LIGHT_HEAD: usize = 18;
/// A light's step: tag, length, and a value of 2 bytes.
const LIGHT_STEP: usize = 5;
/// A site's head: tag, length, and a value of 7 bytes.
const HEAD: usize = 10;
/// A state: tag, length, and a value of 3 bytes.
const STATE: usize = 6;
/// A motion's tag, length, and what its value has before the sweeps.
const MOTION: usize = 8;
const SWEEP: usize = 4;
/// A centre: tag, length, and a value of 4 bytes.
const CENTRE: usize = 7;
const LAST_FRAME: u8 = 16;

fn be16(bytes: &[u8], at: usize) -> usize {
    bytes[at] as usize * 256 + bytes[at + 1] as usize
}

/// `BELOW[n]`: the bits below n.
static BELOW: [[u64; 4]; 256] = {
    let mut all = [[0; 4]; 256];
    let mut n = 1;
    while n < 256 {
        all[n] = all[n - 1];
        all[n][(n - 1) / 64] |= 1 << ((n - 1) % 64);
        n += 1;
    }
    all
};

/// A motion with its sweeps left in the file.
#[derive(Clone, Copy)]
pub(crate) struct Motion {
    pub(crate) from: u16,
    pub(crate) to: u16,
    pub(crate) d: u8,
    sweeps: u8,
    at: u32,
}

/// An accepted site file.
pub struct Site<'a> {
    bytes: &'a [u8],
    pub h: usize,
    pub c: usize,
    pub s: usize,
    pub(crate) margin: usize,
    pub(crate) motions: Vec<Motion>,
    /// The centres' fields, or no bytes.
    centres: &'a [u8],
}

impl<'a> Site<'a> {
    /// Checks 1 to 6.
    pub fn read(bytes: &'a [u8]) -> Result<Site<'a>, u8> {
        let len = bytes.len();
        if len > MAX_SITE {
            return Err(1);
        }
        let mut at = 0;
        while at < len {
            if len - at < 3 || len - at - 3 < be16(bytes, at + 1) {
                return Err(2);
            }
            at += 3 + be16(bytes, at + 1);
        }
        if len == 0 || bytes[0] != 1 || be16(bytes, 1) != HEAD - 3 {
            return Err(3);
        }
        let (h, c, s, margin) = (be16(bytes, 3), be16(bytes, 5), be16(bytes, 7), bytes[9] as usize);
        if h == 0 || h > MAX_H || c == 0 || c > MAX_CELLS || s == 0 || s > MAX_STATES || margin > MAX_MARGIN {
            return Err(3);
        }
        let mut at = HEAD;
        for _ in 0..s {
            if at == len || bytes[at] != 2 || be16(bytes, at + 1) != STATE - 3 {
                return Err(4);
            }
            at += STATE;
        }
        let mut motions = Vec::with_capacity(((len - at) / (MOTION + SWEEP)).min(MAX_MOTIONS));
        while at < len && bytes[at] == 3 {
            let field = 3 + be16(bytes, at + 1);
            let fits = (MOTION + SWEEP..=MOTION + SWEEP * MAX_SWEEPS).contains(&field) && (field - MOTION) % SWEEP == 0;
            if !fits || motions.len() == MAX_MOTIONS {
                return Err(4);
            }
            motions.push(Motion {
                from: be16(bytes, at + 3) as u16,
                to: be16(bytes, at + 5) as u16,
                d: bytes[at + 7],
                sweeps: ((field - MOTION) / SWEEP) as u8,
                at: (at + MOTION) as u32,
            });
            at += field;
        }
        let centres = &bytes[at..];
        let one_for_each = centres.len() == CENTRE * c && centres.chunks_exact(CENTRE).all(|field| field[..3] == [4, 0, 4]);
        if !centres.is_empty() && !one_for_each {
            return Err(4);
        }
        let site = Site { bytes, h, c, s, margin, motions, centres };
        if (0..s).any(|state| site.cell(state) >= c) {
            return Err(5);
        }
        if !site.motions.iter().all(|motion| site.motion_ok(motion)) {
            return Err(6);
        }
        Ok(site)
    }

    // Every state field has the same length, so a state's value has a fixed place.
    pub(crate) fn cell(&self, state: usize) -> usize {
        be16(self.bytes, HEAD + STATE * state + 3)
    }

    pub(crate) fn standing(&self, state: usize) -> bool {
        self.bytes[HEAD + STATE * state + 5] == 0
    }

    /// x and y of the centre of a state's cell, on a site that has centres.
    fn centre(&self, state: usize) -> [f32; 2] {
        let at = CENTRE * self.cell(state) + 3;
        [at, at + 2].map(|at| be16(self.centres, at) as f32)
    }

    /// Cell, a and b of each sweep.
    pub(crate) fn sweeps(&self, motion: &Motion) -> impl Iterator<Item = (usize, usize, usize)> + 'a {
        let at = motion.at as usize;
        let bytes: &'a [u8] = self.bytes;
        bytes[at..at + SWEEP * motion.sweeps as usize].chunks_exact(SWEEP).map(|w| (be16(w, 0), w[2] as usize, w[3] as usize))
    }

    fn motion_ok(&self, motion: &Motion) -> bool {
        let (from, to, d) = (motion.from as usize, motion.to as usize, motion.d as usize);
        if from >= self.s || to >= self.s || from == to || d == 0 {
            return false;
        }
        let (cell_from, cell_to) = (self.cell(from), self.cell(to));
        let (mut leaves, mut enters) = (false, false);
        // All offsets below `linked` share a cell with their next one.
        let mut linked = 0;
        for (cell, a, b) in self.sweeps(motion) {
            if cell >= self.c || a > b || b > d {
                return false;
            }
            leaves |= cell == cell_from && a == 0;
            enters |= cell == cell_to && b == d;
            if a <= linked && linked < b {
                linked = b;
            }
        }
        if !leaves || !enters {
            return false;
        }
        // One pass is enough for sweeps in order of travel.
        linked == d || self.links(motion)
    }

    /// Handover for sweeps in any order: for each offset below the span some cell is used there and at the next one.
    fn links(&self, motion: &Motion) -> bool {
        let wanted = &BELOW[motion.d as usize];
        let mut links = [0; 4];
        for (_, a, b) in self.sweeps(motion) {
            for (i, word) in links.iter_mut().enumerate() {
                *word |= BELOW[b][i] & !BELOW[a][i];
            }
        }
        if links == *wanted {
            return true;
        }
        for (cell, _, b) in self.sweeps(motion) {
            if self.sweeps(motion).any(|(other, a, _)| other == cell && a == b + 1) {
                links[b >> 6] |= 1 << (b & 63);
            }
        }
        links == *wanted
    }

    pub fn board_len(&self) -> usize {
        4 + self.c * (self.h + 1)
    }

    fn row<'b>(&self, board: &'b [u8], cell: usize) -> &'b [u8] {
        let at = 4 + cell * (self.h + 1);
        &board[at..at + self.h + 1]
    }

    /// A cell's bytes from one tick to another, both included, and those within the margin of them.
    fn near<'b>(&self, board: &'b [u8], cell: usize, first: usize, last: usize) -> &'b [u8] {
        &self.row(board, cell)[first.saturating_sub(self.margin)..=(last + self.margin).min(self.h)]
    }

    /// Whether a cell is free for a tug from one tick to another, both included.
    fn free(&self, board: &[u8], cell: usize, first: usize, last: usize) -> bool {
        last <= self.h && self.near(board, cell, first, last).iter().all(|&byte| byte == 0)
    }

    /// Whether a cell can be closed from one tick to another. Only tugs need the margin.
    fn closable(&self, board: &[u8], cell: usize, first: usize, last: usize) -> bool {
        let unheld = self.row(board, cell)[first..=last].iter().all(|&byte| byte == 0);
        unheld && self.near(board, cell, first, last).iter().all(|&byte| byte == 0 || byte > 199)
    }
}

/// Checks 1 to 7.
pub(crate) fn enter<'a>(site: &'a [u8], board: &[u8]) -> Result<Site<'a>, u8> {
    let site = Site::read(site)?;
    if board.len() == site.board_len() {
        Ok(site)
    } else {
        Err(7)
    }
}

/// Whether some byte behind the edition carries a holder's number.
fn stands(board: &[u8], holder: u8) -> bool {
    // Without a test inside a block the comparison is done many bytes at a time.
    board[4..].chunks(2_048).any(|block| block.iter().fold(0, |found, &byte| found | (byte == holder) as u8) != 0)
}

fn edition(board: &[u8]) -> u32 {
    u32::from_be_bytes([board[0], board[1], board[2], board[3]])
}

/// Only called below the largest edition.
fn next_edition(board: &mut [u8]) {
    let next = edition(board) + 1;
    board[..4].copy_from_slice(&next.to_be_bytes());
}

fn answer(result: Result<(), u8>) -> Answer {
    Answer::plain(result.err().unwrap_or(0))
}

pub fn open(site: &[u8], board: &mut [u8]) -> Answer {
    answer(enter(site, board).map(|_| board.fill(0)))
}

pub fn interval(site: &[u8], board: &[u8], cell: u16, out: &mut [u16]) -> Answer {
    let site = match enter(site, board) {
        Ok(site) => site,
        Err(number) => return Answer::plain(number),
    };
    if cell as usize >= site.c {
        return Answer::plain(10);
    }
    if out.len() < site.h + 2 {
        return Answer::plain(14);
    }
    let row = site.row(board, cell as usize);
    let mut count = 0;
    let mut tick = 0;
    while tick <= site.h {
        if row[tick] != 0 {
            tick += 1;
            continue;
        }
        let began = tick;
        while tick < site.h && row[tick + 1] == 0 {
            tick += 1;
        }
        // What is held on either side of the run takes its margin off it.
        let first = if began == 0 { 0 } else { began + site.margin };
        let end = if tick == site.h { tick + 1 } else { (tick + 1).saturating_sub(site.margin) };
        if first < end {
            out[2 * count] = first as u16;
            out[2 * count + 1] = end as u16 - 1;
            count += 1;
        }
        tick += 1;
    }
    Answer { number: 0, value: count as u32, arrival: 0 }
}

/// The steps of a light that keeps the layout.
fn steps(light: &[u8]) -> impl Iterator<Item = (bool, usize)> + '_ {
    light[LIGHT_HEAD..].chunks_exact(LIGHT_STEP).map(|step| (step[0] == 17, be16(step, 3)))
}

fn layout(light: &[u8]) -> bool {
    if light.len() < LIGHT_HEAD || light.len() > MAX_LIGHT || (light.len() - LIGHT_HEAD) % LIGHT_STEP != 0 {
        return false;
    }
    if light[0] != 16 || be16(light, 1) != LIGHT_HEAD - 3 {
        return false;
    }
    let mut after_wait = false;
    light[LIGHT_HEAD..].chunks_exact(LIGHT_STEP).all(|step| {
        let wait = step[0] == 17;
        let good = be16(step, 1) == 2 && if wait { be16(step, 3) != 0 && !after_wait } else { step[0] == 18 };
        after_wait = wait;
        good
    })
}

/// Tug, start, start tick, goal, arrival and dwell of a light that keeps the layout.
fn fields(light: &[u8]) -> (u8, usize, usize, usize, usize, usize) {
    (light[7], be16(light, 8), be16(light, 10), be16(light, 12), be16(light, 14), be16(light, 16))
}

/// Check 10 of a light that keeps the layout.
fn out_of_range(site: &Site, light: &[u8]) -> bool {
    let (_, start, tick, goal, arrival, dwell) = fields(light);
    let motions = site.motions.len();
    let unknown = start >= site.s || goal >= site.s || steps(light).any(|(wait, n)| !wait && n >= motions);
    unknown || tick > site.h || arrival > site.h || dwell > MAX_DWELL
}

/// Checks 1 to 17 of post and audit.
fn check<'a>(site: &'a [u8], board: &[u8], light: &[u8]) -> Result<Site<'a>, u8> {
    let site = enter(site, board)?;
    if !layout(light) {
        return Err(8);
    }
    let (tug, start, tick, goal, arrival, dwell) = fields(light);
    if tug == 0 || tug > 199 {
        return Err(9);
    }
    if out_of_range(&site, light) {
        return Err(10);
    }
    if !site.standing(goal) {
        return Err(11);
    }
    if stands(board, tug) {
        return Err(12);
    }
    if edition(board) == u32::MAX {
        return Err(15);
    }
    if light[3..7] != board[..4] {
        return Err(16);
    }
    let (mut state, mut at) = (start, tick);
    if !site.free(board, site.cell(state), at, at) {
        return Err(17);
    }
    for (wait, n) in steps(light) {
        if wait {
            if !site.standing(state) || !site.free(board, site.cell(state), at, at + n) {
                return Err(17);
            }
            at += n;
        } else {
            let motion = &site.motions[n];
            let allowed = motion.from as usize == state && site.sweeps(motion).all(|(cell, a, b)| site.free(board, cell, at + a, at + b));
            if !allowed {
                return Err(17);
            }
            at += motion.d as usize;
            state = motion.to as usize;
        }
    }
    if state != goal || at != arrival || !site.free(board, site.cell(goal), at, at + dwell) {
        return Err(17);
    }
    Ok(site)
}

pub fn audit(site: &[u8], board: &[u8], light: &[u8]) -> Answer {
    answer(check(site, board, light).map(|_| ()))
}

pub fn draw(site: &[u8], light: &[u8], step: u16, frame: u8) -> Drawn {
    let refuse = |number| Drawn::plain(number, OFF_FLOOR);
    let site = match Site::read(site) {
        Ok(site) => site,
        Err(number) => return refuse(number),
    };
    if !layout(light) {
        return refuse(8);
    }
    if out_of_range(&site, light) {
        return refuse(10);
    }
    if frame > LAST_FRAME || site.centres.is_empty() {
        return refuse(20);
    }
    let at = LIGHT_HEAD + LIGHT_STEP * step as usize;
    if at >= light.len() {
        return refuse(0);
    }
    let motion_at = |at: usize| &site.motions[be16(light, at + 3)];
    if light[at] == 17 {
        // What stands before a wait is the head, or a motion.
        let state = if step == 0 { be16(light, 8) } else { motion_at(at - LIGHT_STEP).to as usize };
        let [x, y] = site.centre(state);
        return Drawn { number: 0, kind: STANDING, x, y, share: 0.0 };
    }
    let motion = motion_at(at);
    let (old, new) = (site.centre(motion.from as usize), site.centre(motion.to as usize));
    // Each of these is a multiple of 1/16 and below 65,536, so no step of it is rounded.
    let share = frame as f32 / LAST_FRAME as f32;
    let [x, y] = [0, 1].map(|i| old[i] + share * (new[i] - old[i]));
    Drawn { number: 0, kind: ROLLING, x, y, share }
}

pub fn post(site: &[u8], board: &mut [u8], light: &[u8]) -> Answer {
    let site = match check(site, board, light) {
        Ok(site) => site,
        Err(number) => return Answer::plain(number),
    };
    let tug = light[7];
    let ticks = site.h + 1;
    let mut hold = |cell: usize, first: usize, last: usize| board[4 + cell * ticks..][first..=last].fill(tug);
    let (mut state, mut at) = (be16(light, 8), be16(light, 10));
    hold(site.cell(state), at, at);
    for (wait, n) in steps(light) {
        if wait {
            hold(site.cell(state), at, at + n);
            at += n;
        } else {
            let motion = &site.motions[n];
            for (cell, a, b) in site.sweeps(motion) {
                hold(cell, at + a, at + b);
            }
            at += motion.d as usize;
            state = motion.to as usize;
        }
    }
    hold(site.cell(state), at, at + be16(light, 16));
    next_edition(board);
    Answer::plain(0)
}

pub fn close(site: &[u8], board: &mut [u8], holder: u8, cell: u16, first: u16, last: u16) -> Answer {
    let (cell, first, last) = (cell as usize, first as usize, last as usize);
    let result = enter(site, board).and_then(|site| {
        if !(200..=254).contains(&holder) {
            Err(9)
        } else if cell >= site.c || last > site.h || first > last {
            Err(10)
        } else if stands(board, holder) {
            Err(12)
        } else if edition(board) == u32::MAX {
            Err(15)
        } else if !site.closable(board, cell, first, last) {
            Err(17)
        } else {
            Ok(site.h + 1)
        }
    });
    answer(result.map(|ticks| {
        board[4 + cell * ticks..][first..=last].fill(holder);
        next_edition(board);
    }))
}

pub fn withdraw(site: &[u8], board: &mut [u8], holder: u8) -> Answer {
    let result = enter(site, board).and_then(|_| {
        if holder == 0 || holder == 255 {
            Err(9)
        } else if !stands(board, holder) {
            Err(13)
        } else if edition(board) == u32::MAX {
            Err(15)
        } else {
            Ok(())
        }
    });
    answer(result.map(|_| {
        for byte in &mut board[4..] {
            if *byte == holder {
                *byte = 0;
            }
        }
        next_edition(board);
    }))
}

#[allow(clippy::too_many_arguments)]
pub fn route(site: &[u8], board: &[u8], tug: u8, start: u16, tick: u16, goal: u16, dwell: u16, out: &mut [u8], work: &mut [u32]) -> Answer {
    let site = match enter(site, board) {
        Ok(site) => site,
        Err(number) => return Answer::plain(number),
    };
    let (start, tick, goal, dwell) = (start as usize, tick as usize, goal as usize, dwell as usize);
    if tug == 0 || tug > 199 {
        return Answer::plain(9);
    }
    if start >= site.s || tick > site.h || goal >= site.s || dwell > MAX_DWELL {
        return Answer::plain(10);
    }
    if !site.standing(goal) {
        return Answer::plain(11);
    }
    if stands(board, tug) {
        return Answer::plain(12);
    }
    let words = site.s * (site.h + 1);
    if out.len() < LIGHT_HEAD + LIGHT_STEP * site.h || work.len() < words {
        return Answer::plain(14);
    }
    work[..words].fill(0);
    let trip = Trip { tug, start, tick, goal, dwell };
    if site.s <= 64 * FEW {
        SEARCH.with_borrow_mut(|search| search.light(&site, board, trip, out))
    } else {
        WIDE_SEARCH.with_borrow_mut(|search| search.light(&site, board, trip, out))
    }
}

/// What a route is asked for.
#[derive(Clone, Copy)]
struct Trip {
    tug: u8,
    start: usize,
    tick: usize,
    goal: usize,
    dwell: usize,
}

/// Words of a set of states, for most sites and for the largest.
const FEW: usize = 4;
const MANY: usize = MAX_STATES.div_ceil(64);

thread_local! {
    // Kept between calls, so that a call does not pay for fresh memory. Nothing is read before it is set.
    static SEARCH: RefCell<Search<FEW>> = RefCell::new(Search::new());
    static WIDE_SEARCH: RefCell<Search<MANY>> = RefCell::new(Search::new());
}

/// A set of states.
type Set<const W: usize> = [u64; W];

/// Words of a row of ticks: 16 for the ticks, and 4 that stay 0, so that a look ahead of up to 255 ticks needs no test.
const ROW: usize = 20;
type Row = [u64; ROW];
/// Rows for free runs of 1, 2, 4, .. 256 ticks.
const LEVELS: usize = 9;
/// Ticks in front of tick 0, none of them reached, so that t - d needs no test.
const BEFORE: usize = 256;

/// A motion that leads to or from a state.
#[derive(Clone, Copy, Default)]
struct Edge {
    motion: u16,
    other: u16,
    d: u8,
}

/// A search with sets of W words.
struct Search<const W: usize> {
    starts: Starts,
    /// For each tick the states whose cell is free.
    free: Box<[Set<W>; 1_024]>,
    /// For each tick, after `BEFORE`, the states reached.
    reached: Box<[Set<W>; 1_024 + BEFORE]>,
    /// For each tick the states that come into question then, as the from state of a motion has first been reached.
    fresh: Box<[Set<W>; 1_024 + BEFORE]>,
    /// For each tick the states that are known to be reached by a motion, before that tick's turn.
    ahead: Box<[Set<W>; 1_024 + BEFORE]>,
    incoming: Edges,
    outgoing: Edges,
    /// For each state the motion that led there last.
    likely: Vec<Edge>,
    /// The traced steps, last first.
    steps: Vec<(u8, u16)>,
}

/// At which ticks each motion may start, by the cells that it sweeps.
struct Starts {
    /// `runs[cell][k]`, bit t: the cell is free from t to t + 2^k - 1.
    runs: Box<[[Row; LEVELS]]>,
    /// How many levels are worked out, for each cell.
    levels: Box<[u8; MAX_CELLS]>,
    /// `allowed[motion]`, bit t: each swept cell is free when the motion starts at t.
    allowed: Box<[[u64; 16]; MAX_MOTIONS]>,
    /// Which quarters of `allowed` are worked out.
    known: Box<[u8; MAX_MOTIONS]>,
}

/// The motions that lead to each state, or from each, in number order.
struct Edges {
    edges: Vec<Edge>,
    /// Where those of each state begin, and of the last one end.
    at: Vec<u32>,
}

fn has<const W: usize>(set: &Set<W>, state: usize) -> bool {
    set[state >> 6] >> (state & 63) & 1 == 1
}

fn insert<const W: usize>(set: &mut Set<W>, state: usize) {
    set[state >> 6] |= 1 << (state & 63);
}

/// So many empty sets.
fn sets<const W: usize, const N: usize>() -> Box<[Set<W>; N]> {
    vec![[0; W]; N].into_boxed_slice().try_into().unwrap()
}

/// The 256 bits of a row from a tick on.
fn window(row: &Row, tick: usize) -> [u64; 4] {
    let words: &[u64; 5] = row[tick >> 6..][..5].try_into().unwrap();
    let shift = tick & 63;
    std::array::from_fn(|i| words[i] >> shift | words[i + 1] << 1 << (63 - shift))
}

/// One bit for each byte that is 0.
#[cfg(target_arch = "x86_64")]
fn zero_bytes(bytes: &[u8; 64]) -> u64 {
    use std::arch::x86_64::{_mm_cmpeq_epi8, _mm_loadu_si128, _mm_movemask_epi8, _mm_setzero_si128};
    let mut bits = 0;
    for (i, part) in bytes.chunks_exact(16).enumerate() {
        // Safe: a part has 16 bytes, and every x86-64 processor has these instructions.
        let mask = unsafe { _mm_movemask_epi8(_mm_cmpeq_epi8(_mm_loadu_si128(part.as_ptr().cast()), _mm_setzero_si128())) };
        bits |= (mask as u64) << (16 * i);
    }
    bits
}

#[cfg(not(target_arch = "x86_64"))]
fn zero_bytes(bytes: &[u8; 64]) -> u64 {
    bytes.iter().rev().fold(0, |bits, &byte| bits << 1 | (byte == 0) as u64)
}

/// Bit j of word i becomes bit i of word j.
fn transpose(block: &mut [u64; 64]) {
    let mut half = 32;
    let mut mask: u64 = 0x0000_0000_ffff_ffff;
    while half != 0 {
        let mut i = 0;
        while i < 64 {
            for k in i..i + half {
                let change = (block[k] >> half ^ block[k + half]) & mask;
                block[k] ^= change << half;
                block[k + half] ^= change;
            }
            i += 2 * half;
        }
        half /= 2;
        mask ^= mask << half;
    }
}

/// The ticks of a word that are within a margin of a held one. The words have the held ticks, and those beside it are the ones before and after it.
fn within_margin(before: u64, word: u64, after: u64, margin: usize) -> u64 {
    // Bit j is the tick j - margin of the word, so a tick is in question for the bits from its own number on, 2 margin + 1 of them.
    let mut held = before as u128 >> (64 - margin) | (word as u128) << margin | (after as u128) << (64 + margin);
    let (mut ticks, wanted) = (1, 2 * margin + 1);
    while ticks < wanted {
        let more = ticks.min(wanted - ticks);
        held |= held >> more;
        ticks += more;
    }
    held as u64
}

/// Takes the ticks that are within a margin of a held one off a row of free ticks up to H.
#[inline(never)]
fn keep_margin(row: &mut Row, h: usize, margin: usize) {
    let words = h / 64 + 1;
    let mut held = row.map(|word| !word);
    // Ticks past the horizon are not free, but nothing keeps away from them.
    held[words - 1] &= !0 >> (63 - h % 64);
    held[words] = 0;
    let mut before = 0;
    for i in 0..words {
        row[i] &= !within_margin(before, held[i], held[i + 1], margin);
        before = held[i];
    }
}

impl Edges {
    fn new() -> Edges {
        Edges { edges: Vec::new(), at: Vec::new() }
    }

    /// Sorts the motions by the first of two states.
    fn sort(&mut self, site: &Site, ends: impl Fn(&Motion) -> (u16, u16)) {
        self.at.clear();
        self.at.resize(site.s + 1, 0);
        for motion in &site.motions {
            self.at[ends(motion).0 as usize] += 1;
        }
        let mut sum = 0;
        for count in self.at.iter_mut() {
            sum += *count;
            *count = sum;
        }
        self.edges.clear();
        self.edges.resize(site.motions.len(), Edge::default());
        for (k, motion) in site.motions.iter().enumerate().rev() {
            let (state, other) = ends(motion);
            let place = &mut self.at[state as usize];
            *place -= 1;
            self.edges[*place as usize] = Edge { motion: k as u16, other, d: motion.d };
        }
    }

    fn of(&self, state: usize) -> &[Edge] {
        &self.edges[self.at[state] as usize..self.at[state + 1] as usize]
    }
}

impl Starts {
    fn new() -> Starts {
        Starts {
            runs: vec![[[0; ROW]; LEVELS]; MAX_CELLS].into(),
            levels: Box::new([0; MAX_CELLS]),
            allowed: vec![[0; 16]; MAX_MOTIONS].into_boxed_slice().try_into().unwrap(),
            known: Box::new([0; MAX_MOTIONS]),
        }
    }

    fn prepare(&mut self, site: &Site, board: &[u8]) {
        for cell in 0..site.c {
            let row = &mut self.runs[cell][0];
            row.fill(0);
            let mut blocks = site.row(board, cell).chunks_exact(64);
            let mut words = row.iter_mut();
            for (block, word) in (&mut blocks).zip(&mut words) {
                *word = zero_bytes(block.try_into().unwrap());
            }
            // Ticks past the horizon count as held.
            let mut rest = [1; 64];
            rest[..blocks.remainder().len()].copy_from_slice(blocks.remainder());
            *words.next().unwrap() = zero_bytes(&rest);
        }
        if site.margin > 0 {
            self.runs[..site.c].iter_mut().for_each(|rows| keep_margin(&mut rows[0], site.h, site.margin));
        }
        self.levels[..site.c].fill(1);
        self.known[..site.motions.len()].fill(0);
    }

    /// Whether a motion may start at a tick, which with its span is at most H.
    #[inline(always)]
    fn allow(&mut self, site: &Site, motion: usize, tick: usize) -> bool {
        if self.known[motion] >> (tick >> 8) & 1 == 0 {
            self.work_out(site, motion, tick >> 8);
        }
        self.allowed[motion][tick >> 6 & 15] >> (tick & 63) & 1 == 1
    }

    /// A quarter of a motion's `allowed`.
    #[inline(never)]
    fn work_out(&mut self, site: &Site, motion: usize, quarter: usize) {
        let mut bits = [!0; 4];
        for (cell, a, b) in site.sweeps(&site.motions[motion]) {
            // Two runs of the largest power of two cover the sweep.
            let level = (b - a + 1).ilog2() as usize;
            let rows = &mut self.runs[cell];
            while self.levels[cell] as usize <= level {
                let k = self.levels[cell] as usize;
                let ahead = 1 << (k - 1);
                for quarter in 0..4 {
                    let later = window(&rows[k - 1], 256 * quarter + ahead);
                    for (i, word) in later.into_iter().enumerate() {
                        rows[k][4 * quarter + i] = rows[k - 1][4 * quarter + i] & word;
                    }
                }
                self.levels[cell] += 1;
            }
            let first = window(&rows[level], 256 * quarter + a);
            let last = window(&rows[level], 256 * quarter + b + 1 - (1 << level));
            for (i, word) in bits.iter_mut().enumerate() {
                *word &= first[i] & last[i];
            }
            if bits == [0; 4] {
                break;
            }
        }
        self.allowed[motion][4 * quarter..4 * quarter + 4].copy_from_slice(&bits);
        self.known[motion] |= 1 << quarter;
    }
}

/// Whether a motion leads to its to state at a tick.
#[inline(always)]
fn leads<const W: usize>(site: &Site, starts: &mut Starts, reached: &[Set<W>; 1_024 + BEFORE], edge: Edge, tick: usize) -> bool {
    has(&reached[tick + BEFORE - edge.d as usize], edge.other as usize) && starts.allow(site, edge.motion as usize, tick - edge.d as usize)
}

/// The goal's cell, asked at rising ticks.
struct Dock<'a> {
    row: &'a [u8],
    margin: usize,
    /// No tick from the last one asked up to here is held, this one left out.
    held: usize,
}

impl Dock<'_> {
    /// Whether the cell, which is free at a tick, is free for the whole dwell from there. Each byte of the row is looked at once, over all calls.
    fn unloads(&mut self, tick: usize, dwell: usize) -> bool {
        if tick + dwell >= self.row.len() {
            return false;
        }
        let end = (tick + dwell + self.margin).min(self.row.len() - 1);
        self.held = self.held.max(tick);
        while self.held <= end && self.row[self.held] == 0 {
            self.held += 1;
        }
        self.held > end
    }
}

fn count<const W: usize>(set: &Set<W>) -> usize {
    set.iter().map(|word| word.count_ones() as usize).sum()
}

impl<const W: usize> Search<W> {
    fn new() -> Search<W> {
        Search {
            starts: Starts::new(),
            free: sets(),
            reached: sets(),
            fresh: sets(),
            ahead: sets(),
            incoming: Edges::new(),
            outgoing: Edges::new(),
            likely: Vec::new(),
            steps: Vec::new(),
        }
    }

    /// The answer, with the light of a granted route in the output area.
    fn light(&mut self, site: &Site, board: &[u8], trip: Trip, out: &mut [u8]) -> Answer {
        let Trip { tug, start, tick, goal, dwell } = trip;
        let Some(arrival) = self.run(site, board, trip) else { return Answer::plain(18) };
        self.trace(site, start, tick, goal, arrival);
        out[..3].copy_from_slice(&[16, 0, LIGHT_HEAD as u8 - 3]);
        out[3..7].copy_from_slice(&board[..4]);
        out[7] = tug;
        for (i, n) in [start, tick, goal, arrival, dwell].into_iter().enumerate() {
            out[8 + 2 * i..10 + 2 * i].copy_from_slice(&(n as u16).to_be_bytes());
        }
        let mut len = LIGHT_HEAD;
        for &(tag, n) in self.steps.iter().rev() {
            out[len..len + 3].copy_from_slice(&[tag, 0, 2]);
            out[len + 3..len + 5].copy_from_slice(&n.to_be_bytes());
            len += LIGHT_STEP;
        }
        Answer { number: 0, value: len as u32, arrival: arrival as u32 }
    }

    fn prepare(&mut self, site: &Site, board: &[u8], tick: usize) {
        self.starts.prepare(site, board);
        self.reached[tick..=tick + BEFORE].fill([0; W]);
        self.fresh[tick..site.h + 1].fill([0; W]);
        self.ahead[tick..site.h + 1].fill([0; W]);
        self.incoming.sort(site, |motion| (motion.to, motion.from));
        self.outgoing.sort(site, |motion| (motion.from, motion.to));
        // A state that comes into question has a motion that leads to it.
        let first = |state| self.incoming.of(state).first().copied().unwrap_or_default();
        self.likely.clear();
        self.likely.extend((0..site.s).map(first));
    }

    /// The sets of free states for the 64 ticks of a word.
    fn free_states(&mut self, site: &Site, word: usize) {
        // Groups without states keep what an earlier call left there; they meet only empty sets.
        for group in 0..site.s.div_ceil(64) {
            let mut block = [0; 64];
            for (i, bits) in block.iter_mut().enumerate().take(site.s - 64 * group) {
                *bits = self.starts.runs[site.cell(64 * group + i)][0][word];
            }
            transpose(&mut block);
            for (set, bits) in self.free[64 * word..64 * word + 64].iter_mut().zip(block) {
                set[group] = bits;
            }
        }
    }

    /// The first time a state is reached, its motions' targets come into question.
    fn note(&mut self, state: usize, tick: usize) {
        for edge in self.outgoing.of(state) {
            insert(&mut self.fresh[tick + edge.d as usize], edge.other as usize);
        }
    }

    /// Tries every motion from the states reached at a tick. Few reached states make this the shorter way.
    fn push(&mut self, site: &Site, now: &Set<W>, tick: usize) {
        for (group, &states) in now.iter().enumerate() {
            let mut left = states;
            while left != 0 {
                let state = 64 * group + left.trailing_zeros() as usize;
                left &= left - 1;
                for &edge in self.outgoing.of(state) {
                    if tick + edge.d as usize <= site.h && self.starts.allow(site, edge.motion as usize, tick) {
                        insert(&mut self.ahead[tick + edge.d as usize], edge.other as usize);
                    }
                }
            }
        }
    }

    /// Which of some states are reached at a tick by a motion. Many reached states make this the shorter way,
    /// as the first motion that leads there ends the look at a state.
    fn pull(&mut self, site: &Site, group: usize, states: u64, tick: usize, tried: &mut usize) -> u64 {
        let Search { starts, reached, incoming, likely, .. } = self;
        let mut found = 0;
        let mut left = states;
        while left != 0 {
            let state = 64 * group + left.trailing_zeros() as usize;
            let bit = left & left.wrapping_neg();
            left ^= bit;
            // The motion that led here last often does so again.
            if leads(site, starts, reached, likely[state], tick) {
                found |= bit;
                continue;
            }
            for &edge in incoming.of(state) {
                *tried += 1;
                if leads(site, starts, reached, edge, tick) {
                    likely[state] = edge;
                    found |= bit;
                    break;
                }
            }
        }
        found
    }

    /// The least tick at which the goal is reached and its cell stays free for the dwell.
    fn run(&mut self, site: &Site, board: &[u8], trip: Trip) -> Option<usize> {
        let Trip { start, tick, goal, dwell, .. } = trip;
        if !site.free(board, site.cell(start), tick, tick) {
            return None;
        }
        self.prepare(site, board, tick);
        insert(&mut self.reached[tick + BEFORE], start);
        let mut dock = Dock { row: site.row(board, site.cell(goal)), margin: site.margin, held: 0 };
        if start == goal && dock.unloads(tick, dwell) {
            return Some(tick);
        }
        let longest = site.motions.iter().map(|motion| motion.d as usize).max().unwrap_or(0);
        let degree = site.motions.len().div_ceil(site.s);
        let groups = site.s.div_ceil(64);
        let mut standing = [0; W];
        for state in (0..site.s).filter(|&state| site.standing(state)) {
            insert(&mut standing, state);
        }
        let mut now = self.reached[tick + BEFORE];
        let mut seen = now;
        let mut targets: Set<W> = [0; W];
        self.note(start, tick);
        self.push(site, &now, tick);
        let mut pushing = true;
        // The last tick whose motions were not pushed: later ticks need a pull up to the longest span after it.
        let mut unpushed = None;
        let mut last = tick;
        self.free_states(site, tick >> 6);
        for t in tick + 1..=site.h {
            if t & 63 == 0 {
                self.free_states(site, t >> 6);
            }
            let pulling = unpushed.is_some_and(|u| t <= u + longest);
            // How many motions are tried in this tick, or would be if it pulled.
            let mut tried = 0;
            for group in 0..groups {
                targets[group] |= self.fresh[t][group];
                let free = self.free[t][group];
                let waited = now[group] & standing[group] & free;
                let mut set = waited | self.ahead[t][group];
                if pulling {
                    let open = targets[group] & free & !set;
                    tried += open.count_ones() as usize;
                    set |= self.pull(site, group, open, t, &mut tried);
                } else {
                    let moved = set & !waited;
                    let missed = targets[group] & free & !set;
                    tried += moved.count_ones() as usize + missed.count_ones() as usize * degree;
                }
                now[group] = set;
            }
            self.reached[t + BEFORE] = now;
            if has(&now, goal) && dock.unloads(t, dwell) {
                return Some(t);
            }
            for group in 0..groups {
                let mut new = now[group] & !seen[group];
                seen[group] |= new;
                while new != 0 {
                    self.note(64 * group + new.trailing_zeros() as usize, t);
                    new &= new - 1;
                }
            }
            if now != [0; W] {
                last = t;
            } else if t - last >= longest {
                // Nothing more is reached.
                return None;
            }
            // A change of way costs, as pulls go on for the longest span, so it needs a clear advantage.
            let to_push = count(&now) * degree;
            pushing = if pushing { to_push <= 2 * tried } else { 2 * to_push <= tried };
            if pushing {
                self.push(site, &now, t);
            } else {
                unpushed = Some(t);
            }
        }
        None
    }

    /// The steps of the traced rule, last first.
    fn trace(&mut self, site: &Site, start: usize, tick: usize, goal: usize, arrival: usize) {
        let Search { starts, reached, incoming, steps, .. } = self;
        steps.clear();
        let (mut state, mut t) = (goal, arrival);
        while (state, t) != (start, tick) {
            // A reached pair's cell is free, so the wait needs no look at the board.
            if site.standing(state) && has(&reached[t - 1 + BEFORE], state) {
                match steps.last_mut() {
                    Some((17, n)) => *n += 1,
                    _ => steps.push((17, 1)),
                }
                t -= 1;
                continue;
            }
            let edge = incoming.of(state).iter().copied().find(|&edge| leads(site, starts, reached, edge, t));
            let edge = edge.expect("a reached pair other than the start has a step that leads to it");
            steps.push((18, edge.motion));
            t -= edge.d as usize;
            state = edge.other as usize;
        }
    }
}
