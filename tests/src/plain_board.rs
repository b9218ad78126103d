//! The plain board of 'Lists of calls' of docs/FORMATS.md: an edition and entries of a holder with its set of pairs.
//! It sees the site and each call's arguments, with areas as lengths, and never the bytes of a board.

use crate::desk::Answer;
use crate::literal::{Light, Site, MAX_DWELL};
use std::collections::BTreeSet;
use std::ops::RangeInclusive;

type Pair = (usize, usize);

pub struct PlainBoard {
    site: Site,
    n: u32,
    entries: Vec<(u8, BTreeSet<Pair>)>,
}

impl PlainBoard {
    pub fn new(site: Site) -> PlainBoard {
        PlainBoard { site, n: 0, entries: Vec::new() }
    }

    fn stands(&self, holder: u8) -> bool {
        self.entries.iter().any(|entry| entry.0 == holder)
    }

    /// The pairs of the entries whose holder is one of some numbers.
    fn held(&self, holders: RangeInclusive<u8>) -> BTreeSet<Pair> {
        self.entries.iter().filter(|entry| holders.contains(&entry.0)).flat_map(|entry| entry.1.iter().copied()).collect()
    }

    /// Whether some of these pairs has this cell and a tick within m of this one.
    fn within_margin(&self, pairs: &BTreeSet<Pair>, cell: usize, tick: usize) -> bool {
        let around = self.site.around(tick);
        pairs.range((cell, *around.start())..=(cell, *around.end())).next().is_some()
    }

    /// What is free for a tug.
    fn free(&self) -> impl Fn(usize, usize) -> bool + '_ {
        let held = self.held(1..=254);
        move |cell, tick| !self.within_margin(&held, cell, tick)
    }

    fn add(&mut self, holder: u8, pairs: impl IntoIterator<Item = Pair>) {
        self.entries.push((holder, pairs.into_iter().collect()));
        self.n += 1;
    }

    /// A granted route has its light beside the answer.
    #[allow(clippy::too_many_arguments)]
    pub fn route(&self, tug: u8, start: u16, tick: u16, goal: u16, dwell: u16, out: usize, work: usize) -> (Answer, Vec<u8>) {
        let site = &self.site;
        let s = site.states.len();
        let refuse = |number| (Answer::plain(number), Vec::new());
        if !(1..=199).contains(&tug) {
            return refuse(9);
        }
        if start as usize >= s || tick as usize > site.h || goal as usize >= s || dwell > MAX_DWELL {
            return refuse(10);
        }
        if !site.standing(goal as usize) {
            return refuse(11);
        }
        if self.stands(tug) {
            return refuse(12);
        }
        if out < site.output_len() || work < s * (site.h + 1) {
            return refuse(14);
        }
        match site.route(&self.free(), start as usize, tick as usize, goal as usize, dwell as usize) {
            None => refuse(18),
            Some((steps, arrival)) => {
                let bytes = Light { edition: self.n, tug, start, tick, goal, arrival: arrival as u16, dwell, steps }.encode();
                (Answer { number: 0, value: bytes.len() as u32, arrival: arrival as u32 }, bytes)
            }
        }
    }

    fn check(&self, bytes: &[u8]) -> Result<(u8, Vec<Pair>), u8> {
        let light = Light::read(bytes).ok_or(8)?;
        if !(1..=199).contains(&light.tug) {
            return Err(9);
        }
        if light.too_large(&self.site) {
            return Err(10);
        }
        if !self.site.standing(light.goal as usize) {
            return Err(11);
        }
        if self.stands(light.tug) {
            return Err(12);
        }
        if self.n == u32::MAX {
            return Err(15);
        }
        if light.edition != self.n {
            return Err(16);
        }
        let pairs = self.site.plan(&self.free(), &light).ok_or(17)?;
        Ok((light.tug, pairs))
    }

    pub fn audit(&self, light: &[u8]) -> Answer {
        Answer::plain(self.check(light).err().unwrap_or(0))
    }

    pub fn post(&mut self, light: &[u8]) -> Answer {
        match self.check(light) {
            Err(number) => Answer::plain(number),
            Ok((tug, pairs)) => {
                self.add(tug, pairs);
                Answer::plain(0)
            }
        }
    }

    pub fn close(&mut self, holder: u8, cell: u16, first: u16, last: u16) -> Answer {
        let (cell, first, last) = (cell as usize, first as usize, last as usize);
        if !(200..=254).contains(&holder) {
            return Answer::plain(9);
        }
        if cell >= self.site.c || first > self.site.h || last > self.site.h || first > last {
            return Answer::plain(10);
        }
        if self.stands(holder) {
            return Answer::plain(12);
        }
        if self.n == u32::MAX {
            return Answer::plain(15);
        }
        let (held, tugs) = (self.held(1..=254), self.held(1..=199));
        if (first..=last).any(|tick| held.contains(&(cell, tick)) || self.within_margin(&tugs, cell, tick)) {
            return Answer::plain(17);
        }
        self.add(holder, (first..=last).map(|tick| (cell, tick)));
        Answer::plain(0)
    }

    pub fn withdraw(&mut self, holder: u8) -> Answer {
        if !(1..=254).contains(&holder) {
            return Answer::plain(9);
        }
        if !self.stands(holder) {
            return Answer::plain(13);
        }
        if self.n == u32::MAX {
            return Answer::plain(15);
        }
        self.entries.retain(|entry| entry.0 != holder);
        self.n += 1;
        Answer::plain(0)
    }

    /// The board's bytes as they are compared: each pair's holder or 0.
    /// Panics if two entries have one pair, which is excluded.
    pub fn bytes(&self) -> Vec<u8> {
        let mut bytes = vec![0; self.site.board_len()];
        bytes[..4].copy_from_slice(&self.n.to_be_bytes());
        for (holder, pairs) in &self.entries {
            for &(cell, tick) in pairs {
                let byte = &mut bytes[4 + cell * (self.site.h + 1) + tick];
                assert_eq!(*byte, 0, "two holders have cell {cell} at tick {tick}");
                *byte = *holder;
            }
        }
        bytes
    }
}
