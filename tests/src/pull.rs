//! A simple program for the route call, written as one would write it first. Its speed is compared too.
//!
//! It searches timestep by timestep: tick by tick, each pair of a state and a tick is tried once, by the tie rule itself. A pair is reached by a wait
//! if the pair before it is reached, else by the lowest numbered motion that may be made and whose earlier pair is reached (pull). The search stops at
//! the arrival, and the light is read off what it noted. The file is read and checked as `plain` does it, so that the two differ by their searches.

use crate::desk::Answer;
use crate::literal::{Light, Step, MAX_DWELL};
use crate::plain::{enter, Motion, Site};

// What the working word of a pair says while the search runs. Every word is 0 before it and behind it.
const UNREACHED: u32 = 0;
const START: u32 = 1;
const WAIT: u32 = 2;
/// And the motion's number.
const MOTION: u32 = 3;

struct Search<'a> {
    site: &'a Site<'a>,
    board: &'a [u8],
    /// The motions that lead to each state, in number order.
    leading: Vec<Vec<usize>>,
    /// How each pair is reached, tick by tick.
    words: &'a mut [u32],
}

impl Search<'_> {
    fn place(&self, state: usize, tick: usize) -> usize {
        tick * self.site.s + state
    }

    fn reached(&self, state: usize, tick: usize) -> bool {
        self.words[self.place(state, tick)] != UNREACHED
    }

    /// Whether a cell is free from one tick to another, both included, with the margin around them.
    fn free(&self, cell: usize, first: usize, last: usize) -> bool {
        let (h, margin) = (self.site.h, self.site.margin);
        let row = 4 + cell * (h + 1);
        last <= h && self.board[row + first.saturating_sub(margin)..=row + (last + margin).min(h)].iter().all(|&byte| byte == 0)
    }

    /// Whether a motion may be made that ends at a tick, and its earlier pair is reached.
    fn leads(&self, motion: &Motion, tick: usize) -> bool {
        let d = motion.d as usize;
        if d > tick || !self.reached(motion.from as usize, tick - d) {
            return false;
        }
        let began = tick - d;
        self.site.sweeps(motion).all(|(cell, a, b)| self.free(cell, began + a, began + b))
    }

    /// How a pair after the start tick is reached.
    fn step_to(&self, state: usize, tick: usize) -> u32 {
        if !self.free(self.site.cell(state), tick, tick) {
            return UNREACHED;
        }
        if self.site.standing(state) && self.reached(state, tick - 1) {
            return WAIT;
        }
        let lowest = self.leading[state].iter().find(|&&k| self.leads(&self.site.motions[k], tick));
        lowest.map_or(UNREACHED, |&k| MOTION + k as u32)
    }

    /// The first tick at which the goal is reached and its cell stays free for the dwell.
    fn arrival(&mut self, start: usize, first: usize, goal: usize, dwell: usize) -> Option<usize> {
        if !self.free(self.site.cell(start), first, first) {
            return None;
        }
        let at = self.place(start, first);
        self.words[at] = START;
        for tick in first..=self.site.h {
            if tick > first {
                for state in 0..self.site.s {
                    let at = self.place(state, tick);
                    self.words[at] = self.step_to(state, tick);
                }
            }
            if self.reached(goal, tick) && self.free(self.site.cell(goal), tick, tick + dwell) {
                return Some(tick);
            }
        }
        None
    }

    /// The steps that lead to a reached pair, adjoining waits merged.
    fn steps(&self, goal: usize, arrival: usize) -> Vec<Step> {
        let mut steps = Vec::new();
        let (mut state, mut tick) = (goal, arrival);
        loop {
            match self.words[self.place(state, tick)] {
                START => break,
                WAIT => {
                    match steps.last_mut() {
                        Some(Step::Wait(n)) => *n += 1,
                        _ => steps.push(Step::Wait(1)),
                    }
                    tick -= 1;
                }
                word => {
                    let k = word - MOTION;
                    let motion = &self.site.motions[k as usize];
                    steps.push(Step::Move(k as u16));
                    tick -= motion.d as usize;
                    state = motion.from as usize;
                }
            }
        }
        steps.reverse();
        steps
    }
}

/// Checks 1 to 14.
#[allow(clippy::too_many_arguments)]
fn check<'a>(file: &'a [u8], board: &[u8], tug: u8, start: u16, tick: u16, goal: u16, dwell: u16, out: &[u8], work: &[u32]) -> Result<Site<'a>, u8> {
    let site = enter(file, board)?;
    if tug == 0 || tug > 199 {
        return Err(9);
    }
    if start as usize >= site.s || tick as usize > site.h || goal as usize >= site.s || dwell > MAX_DWELL {
        return Err(10);
    }
    if !site.standing(goal as usize) {
        return Err(11);
    }
    if board[4..].contains(&tug) {
        return Err(12);
    }
    if out.len() < 18 + 5 * site.h || work.len() < site.s * (site.h + 1) {
        return Err(14);
    }
    Ok(site)
}

#[allow(clippy::too_many_arguments)]
pub fn route(file: &[u8], board: &[u8], tug: u8, start: u16, tick: u16, goal: u16, dwell: u16, out: &mut [u8], work: &mut [u32]) -> Answer {
    let site = match check(file, board, tug, start, tick, goal, dwell, out, work) {
        Ok(site) => site,
        Err(number) => return Answer::plain(number),
    };
    let words = &mut work[..site.s * (site.h + 1)];
    words.fill(0);
    let mut leading = vec![vec![]; site.s];
    for (k, motion) in site.motions.iter().enumerate() {
        leading[motion.to as usize].push(k);
    }
    let mut search = Search { site: &site, board, leading, words };
    let found = search.arrival(start as usize, tick as usize, goal as usize, dwell as usize);
    let answer = match found {
        Some(arrival) => {
            let steps = search.steps(goal as usize, arrival);
            let edition = u32::from_be_bytes([board[0], board[1], board[2], board[3]]);
            let light = Light { edition, tug, start, tick, goal, arrival: arrival as u16, dwell, steps }.encode();
            out[..light.len()].copy_from_slice(&light);
            Answer { number: 0, value: light.len() as u32, arrival: arrival as u32 }
        }
        None => Answer::plain(18),
    };
    search.words.fill(0);
    answer
}
