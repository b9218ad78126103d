//! The rules of docs/FORMATS.md as they read, with sets and plain loops. Nothing here is made fast, and nothing is taken from crates/meaning.

use std::ops::RangeInclusive;

#[derive(Clone, Copy, PartialEq, Eq, Debug)]
pub struct State {
    pub cell: u16,
    pub speed: u8,
}

#[derive(Clone, Copy, PartialEq, Eq, Debug)]
pub struct Sweep {
    pub cell: u16,
    pub a: u8,
    pub b: u8,
}

#[derive(Clone, PartialEq, Eq, Debug)]
pub struct Motion {
    pub from: u16,
    pub to: u16,
    pub d: u8,
    pub sweeps: Vec<Sweep>,
}

/// Where a cell's centre lies, in millimetres.
#[derive(Clone, Copy, PartialEq, Eq, Debug)]
pub struct Centre {
    pub x: u16,
    pub y: u16,
}

#[derive(Clone, PartialEq, Eq, Debug)]
pub struct Site {
    pub h: usize,
    pub c: usize,
    /// The ticks around a held one that are kept free of tugs.
    pub margin: usize,
    pub states: Vec<State>,
    pub motions: Vec<Motion>,
    /// One for each cell, or none.
    pub centres: Vec<Centre>,
}

#[derive(Clone, Copy, PartialEq, Eq, Debug)]
pub enum Step {
    Wait(u16),
    Move(u16),
}

#[derive(Clone, PartialEq, Eq, Debug)]
pub struct Light {
    pub edition: u32,
    pub tug: u8,
    pub start: u16,
    pub tick: u16,
    pub goal: u16,
    pub arrival: u16,
    pub dwell: u16,
    pub steps: Vec<Step>,
}

/// A place, in sixteenths of a millimetre.
pub type Place = (u32, u32);

/// What is drawn of a light at a frame of a step.
#[derive(Clone, Copy, PartialEq, Eq, Debug)]
pub enum Picture {
    OffFloor,
    Standing(Place),
    /// With its share of the motion, in sixteenths.
    Rolling(Place, u32),
}

// The limits of a site file: bytes, ticks, cells, states, motions, the sweeps of a motion, and the margin in ticks.
pub const MAX_SITE: usize = 65_536;
pub const MAX_H: usize = 1_000;
pub const MAX_CELLS: usize = 1_000;
pub const MAX_STATES: usize = 1_280;
pub const MAX_MOTIONS: usize = 4_000;
pub const MAX_SWEEPS: usize = 16;
pub const MAX_MARGIN: usize = 20;

/// Where the margin stands in a site file: the last byte of its head.
pub const MARGIN_AT: usize = 2 + HEAD_LEN;

// The lengths of its values: H, C and S with 2 bytes each and the margin; a cell with 2 bytes and the speed; two states with 2 bytes each and the span,
// and behind these the sweeps, each a cell with 2 bytes and its two ends; x and y with 2 bytes each.
pub const HEAD_LEN: usize = 7;
pub const STATE_LEN: usize = 3;
pub const MOTION_LEN: usize = 5;
pub const SWEEP_LEN: usize = 4;
pub const CENTRE_LEN: usize = 4;

/// The longest time at the goal that a route or a light may name, in ticks.
pub const MAX_DWELL: u16 = 1_000;

/// The last frame of a step, at which a motion is all made.
pub const LAST_FRAME: u8 = 16;

/// Unsigned, high byte first.
pub fn number(bytes: &[u8]) -> usize {
    bytes.iter().fold(0, |n, &b| n * 256 + b as usize)
}

/// The fields of a file, or nothing if one runs past its end.
pub fn fields(bytes: &[u8]) -> Option<Vec<(u8, &[u8])>> {
    let mut rest = bytes;
    let mut all = Vec::new();
    while !rest.is_empty() {
        let length = number(rest.get(1..3)?);
        all.push((rest[0], rest.get(3..3 + length)?));
        rest = &rest[3 + length..];
    }
    Some(all)
}

pub fn put(bytes: &mut Vec<u8>, tag: u8, value: &[u8]) {
    bytes.push(tag);
    bytes.extend((value.len() as u16).to_be_bytes());
    bytes.extend(value);
}

/// The same fields, but the first one's value cut or lengthened with zeros to a length.
pub fn with_head(bytes: &[u8], len: usize) -> Option<Vec<u8>> {
    let all = fields(bytes)?;
    let &(tag, value) = all.first()?;
    let mut head = value.to_vec();
    head.resize(len, 0);
    let mut changed = Vec::new();
    put(&mut changed, tag, &head);
    for (tag, value) in &all[1..] {
        put(&mut changed, *tag, value);
    }
    Some(changed)
}

impl Sweep {
    /// The sweep of its bytes.
    pub fn read(bytes: &[u8]) -> Sweep {
        Sweep { cell: number(&bytes[..2]) as u16, a: bytes[2], b: bytes[3] }
    }

    pub fn encode(&self) -> [u8; SWEEP_LEN] {
        let [high, low] = self.cell.to_be_bytes();
        [high, low, self.a, self.b]
    }
}

impl Centre {
    pub fn encode(&self) -> [u8; CENTRE_LEN] {
        let ([x, low_x], [y, low_y]) = (self.x.to_be_bytes(), self.y.to_be_bytes());
        [x, low_x, y, low_y]
    }
}

impl Motion {
    fn uses(&self, cell: u16, offset: u8) -> bool {
        self.sweeps.iter().any(|w| w.cell == cell && w.a <= offset && offset <= w.b)
    }

    fn well_formed(&self, c: usize, states: &[State]) -> bool {
        let s = states.len();
        (self.from as usize) < s
            && (self.to as usize) < s
            && self.from != self.to
            && self.d >= 1
            && self.sweeps.iter().all(|w| (w.cell as usize) < c && w.a <= w.b && w.b <= self.d)
            && self.uses(states[self.from as usize].cell, 0)
            && self.uses(states[self.to as usize].cell, self.d)
            && (0..self.d).all(|j| self.sweeps.iter().any(|w| self.uses(w.cell, j) && self.uses(w.cell, j + 1)))
    }
}

impl Site {
    /// The site of a file, or the first of the numbers 1 to 6 that applies.
    pub fn read(bytes: &[u8]) -> Result<Site, u8> {
        if bytes.len() > MAX_SITE {
            return Err(1);
        }
        let all = fields(bytes).ok_or(2)?;
        let head = match all.first() {
            Some(&(1, value)) if value.len() == HEAD_LEN => value,
            _ => return Err(3),
        };
        let (h, c, s, margin) = (number(&head[..2]), number(&head[2..4]), number(&head[4..6]), number(&head[6..]));
        if !(1..=MAX_H).contains(&h) || !(1..=MAX_CELLS).contains(&c) || !(1..=MAX_STATES).contains(&s) || !(0..=MAX_MARGIN).contains(&margin) {
            return Err(3);
        }
        let later = &all[1..];
        if later.len() < s {
            return Err(4);
        }
        // The states, then the fields before the first that is no motion, then all others.
        let (first, behind) = later.split_at(s);
        let (second, third) = behind.split_at(behind.iter().take_while(|field| field.0 == 3).count());
        let state_layout = first.iter().all(|&(tag, value)| tag == 2 && value.len() == STATE_LEN);
        let motion_layout = second.iter().all(|&(_, value)| (1..=MAX_SWEEPS).any(|k| value.len() == MOTION_LEN + SWEEP_LEN * k));
        let centre_layout = third.iter().all(|&(tag, value)| tag == 4 && value.len() == CENTRE_LEN);
        let numbers = second.len() <= MAX_MOTIONS && (third.is_empty() || third.len() == c);
        if !state_layout || !motion_layout || !centre_layout || !numbers {
            return Err(4);
        }
        let states: Vec<State> = first.iter().map(|&(_, value)| State { cell: number(&value[..2]) as u16, speed: value[2] }).collect();
        if states.iter().any(|state| state.cell as usize >= c) {
            return Err(5);
        }
        let motions: Vec<Motion> = second
            .iter()
            .map(|&(_, value)| Motion {
                from: number(&value[..2]) as u16,
                to: number(&value[2..4]) as u16,
                d: value[4],
                sweeps: value[MOTION_LEN..].chunks(SWEEP_LEN).map(Sweep::read).collect(),
            })
            .collect();
        if motions.iter().any(|motion| !motion.well_formed(c, &states)) {
            return Err(6);
        }
        let centres = third.iter().map(|&(_, value)| Centre { x: number(&value[..2]) as u16, y: number(&value[2..]) as u16 }).collect();
        Ok(Site { h, c, margin, states, motions, centres })
    }

    /// The picture of a light at a frame of a step, on a site with centres. The light's numbers are in range, and the frame is at most 16.
    pub fn picture(&self, light: &Light, step: usize, frame: u8) -> Picture {
        let k = frame as i64;
        let centre = |state: u16| self.centres[self.cell(state as usize)];
        // Sixteen times a coordinate is 16 times the old one plus k times the difference.
        let drawn = |old: u16, new: u16| (16 * old as i64 + k * (new as i64 - old as i64)) as u32;
        let standing = |at: Centre| Picture::Standing((16 * at.x as u32, 16 * at.y as u32));
        match light.steps.get(step) {
            None => Picture::OffFloor,
            Some(&Step::Move(n)) => {
                let motion = &self.motions[n as usize];
                let (old, new) = (centre(motion.from), centre(motion.to));
                Picture::Rolling((drawn(old.x, new.x), drawn(old.y, new.y)), k as u32)
            }
            // A wait is not followed by a wait, so what stands before one is a motion, or nothing.
            Some(Step::Wait(_)) => match step.checked_sub(1).map(|before| light.steps[before]) {
                Some(Step::Move(n)) => standing(centre(self.motions[n as usize].to)),
                _ => standing(centre(light.start)),
            },
        }
    }

    pub fn standing(&self, state: usize) -> bool {
        self.states[state].speed == 0
    }

    pub fn cell(&self, state: usize) -> usize {
        self.states[state].cell as usize
    }

    pub fn board_len(&self) -> usize {
        4 + self.c * (self.h + 1)
    }

    /// The bytes that a route's output area needs.
    pub fn output_len(&self) -> usize {
        18 + 5 * self.h
    }

    /// The ticks from m before a tick to m behind it, within 0 and H.
    pub fn around(&self, tick: usize) -> RangeInclusive<usize> {
        tick.saturating_sub(self.margin)..=(tick + self.margin).min(self.h)
    }

    /// The cell and tick pairs that a motion holds when it starts at a tick.
    pub fn swept(&self, motion: usize, tick: usize) -> Vec<(usize, usize)> {
        let sweeps = &self.motions[motion].sweeps;
        sweeps.iter().flat_map(|w| (w.a..=w.b).map(|j| (w.cell as usize, tick + j as usize))).collect()
    }

    fn motion_allowed(&self, free: &dyn Fn(usize, usize) -> bool, motion: usize, tick: usize) -> bool {
        tick + self.motions[motion].d as usize <= self.h && self.swept(motion, tick).iter().all(|&(cell, at)| free(cell, at))
    }

    /// The pairs of the goal's cell while a tug unloads, or nothing if a tick of them exceeds H.
    fn unloading(&self, goal: usize, arrival: usize, dwell: usize) -> Option<Vec<(usize, usize)>> {
        (arrival + dwell <= self.h).then(|| (arrival..=arrival + dwell).map(|at| (self.cell(goal), at)).collect())
    }

    /// The pairs that a light's plan holds if it is a valid plan that ends at the light's goal and arrival and unloads there.
    pub fn plan(&self, free: &dyn Fn(usize, usize) -> bool, light: &Light) -> Option<Vec<(usize, usize)>> {
        let (mut state, mut tick) = (light.start as usize, light.tick as usize);
        let mut pairs = vec![(self.cell(state), tick)];
        for step in &light.steps {
            match *step {
                Step::Wait(n) => {
                    if !self.standing(state) || tick + n as usize > self.h {
                        return None;
                    }
                    pairs.extend((tick..=tick + n as usize).map(|at| (self.cell(state), at)));
                    tick += n as usize;
                }
                Step::Move(k) => {
                    let motion = &self.motions[k as usize];
                    if motion.from as usize != state || tick + motion.d as usize > self.h {
                        return None;
                    }
                    pairs.extend(self.swept(k as usize, tick));
                    tick += motion.d as usize;
                    state = motion.to as usize;
                }
            }
        }
        pairs.extend(self.unloading(state, tick, light.dwell as usize)?);
        let ends = state == light.goal as usize && tick == light.arrival as usize;
        (ends && pairs.iter().all(|&(cell, at)| free(cell, at))).then_some(pairs)
    }

    /// `reached[tick][state]`: some valid steps from the start lead there.
    pub fn reached(&self, free: &dyn Fn(usize, usize) -> bool, start: usize, tick: usize) -> Vec<Vec<bool>> {
        let mut reached = vec![vec![false; self.states.len()]; self.h + 1];
        reached[tick][start] = free(self.cell(start), tick);
        let leading = self.leading();
        for t in tick + 1..=self.h {
            for s in 0..self.states.len() {
                reached[t][s] = self.by_wait(free, &reached, s, t) || self.by_motion(free, &reached, &leading[s], t).is_some();
            }
        }
        reached
    }

    /// The motions that lead to each state, by rising numbers.
    fn leading(&self) -> Vec<Vec<usize>> {
        let mut leading = vec![vec![]; self.states.len()];
        self.motions.iter().enumerate().for_each(|(k, motion)| leading[motion.to as usize].push(k));
        leading
    }

    fn by_wait(&self, free: &dyn Fn(usize, usize) -> bool, reached: &[Vec<bool>], s: usize, t: usize) -> bool {
        let cell = self.cell(s);
        t > 0 && self.standing(s) && reached[t - 1][s] && free(cell, t - 1) && free(cell, t)
    }

    fn by_motion(&self, free: &dyn Fn(usize, usize) -> bool, reached: &[Vec<bool>], motions: &[usize], t: usize) -> Option<usize> {
        motions.iter().copied().find(|&k| {
            let (from, d) = (self.motions[k].from as usize, self.motions[k].d as usize);
            d <= t && reached[t - d][from] && self.motion_allowed(free, k, t - d)
        })
    }

    /// The steps and arrival of the traced rule, or nothing if the goal is not reached at a tick at which the tug can unload.
    pub fn route(&self, free: &dyn Fn(usize, usize) -> bool, start: usize, tick: usize, goal: usize, dwell: usize) -> Option<(Vec<Step>, usize)> {
        let reached = self.reached(free, start, tick);
        let unloads = |t: usize| self.unloading(goal, t, dwell).is_some_and(|pairs| pairs.iter().all(|&(cell, at)| free(cell, at)));
        let arrival = (tick..=self.h).find(|&t| reached[t][goal] && unloads(t))?;
        let leading = self.leading();
        let mut steps = Vec::new();
        let (mut s, mut t) = (goal, arrival);
        while (s, t) != (start, tick) {
            if self.by_wait(free, &reached, s, t) {
                match steps.last_mut() {
                    Some(Step::Wait(n)) => *n += 1,
                    _ => steps.push(Step::Wait(1)),
                }
                t -= 1;
            } else {
                let k = self.by_motion(free, &reached, &leading[s], t).expect("a reached pair other than the start has a step that leads to it");
                steps.push(Step::Move(k as u16));
                t -= self.motions[k].d as usize;
                s = self.motions[k].from as usize;
            }
        }
        steps.reverse();
        Some((steps, arrival))
    }

    /// First and last tick of each run of free ticks that cannot be lengthened.
    pub fn intervals(&self, free: &dyn Fn(usize, usize) -> bool, cell: usize) -> Vec<(u16, u16)> {
        let is_free = |t: usize| t <= self.h && free(cell, t);
        let firsts = (0..=self.h).filter(|&t| is_free(t) && (t == 0 || !is_free(t - 1)));
        firsts.map(|t| (t as u16, (t..=self.h).take_while(|&u| is_free(u)).last().unwrap() as u16)).collect()
    }
}

/// The file of a site.
pub fn encode(site: &Site) -> Vec<u8> {
    let mut bytes = Vec::new();
    for (tag, value) in encode_fields(site) {
        put(&mut bytes, tag, &value);
    }
    bytes
}

/// The fields of a site's file, so that the generators can damage them one by one.
pub fn encode_fields(site: &Site) -> Vec<(u8, Vec<u8>)> {
    let mut head = [site.h, site.c, site.states.len()].map(|n| (n as u16).to_be_bytes()).concat();
    head.push(site.margin as u8);
    let mut all = vec![(1, head)];
    all.extend(site.states.iter().map(|state| (2, [&state.cell.to_be_bytes()[..], &[state.speed]].concat())));
    all.extend(site.motions.iter().map(|motion| {
        let mut value = Vec::new();
        value.extend(motion.from.to_be_bytes());
        value.extend(motion.to.to_be_bytes());
        value.push(motion.d);
        value.extend(motion.sweeps.iter().flat_map(Sweep::encode));
        (3, value)
    }));
    all.extend(site.centres.iter().map(|centre| (4, centre.encode().to_vec())));
    all
}

impl Light {
    /// The light of some bytes, or nothing if they are too long, cut short or against the layout.
    pub fn read(bytes: &[u8]) -> Option<Light> {
        if bytes.len() > 5_018 {
            return None;
        }
        let all = fields(bytes)?;
        let &(tag, head) = all.first()?;
        if tag != 16 || head.len() != 15 {
            return None;
        }
        let mut steps = Vec::new();
        for &(tag, value) in &all[1..] {
            if value.len() != 2 {
                return None;
            }
            let n = number(value) as u16;
            match tag {
                17 if n != 0 && !matches!(steps.last(), Some(Step::Wait(_))) => steps.push(Step::Wait(n)),
                18 => steps.push(Step::Move(n)),
                _ => return None,
            }
        }
        Some(Light {
            edition: number(&head[..4]) as u32,
            tug: head[4],
            start: number(&head[5..7]) as u16,
            tick: number(&head[7..9]) as u16,
            goal: number(&head[9..11]) as u16,
            arrival: number(&head[11..13]) as u16,
            dwell: number(&head[13..]) as u16,
            steps,
        })
    }

    pub fn encode(&self) -> Vec<u8> {
        let mut head = Vec::new();
        head.extend(self.edition.to_be_bytes());
        head.push(self.tug);
        for n in [self.start, self.tick, self.goal, self.arrival, self.dwell] {
            head.extend(n.to_be_bytes());
        }
        let mut bytes = Vec::new();
        put(&mut bytes, 16, &head);
        for step in &self.steps {
            match *step {
                Step::Wait(n) => put(&mut bytes, 17, &n.to_be_bytes()),
                Step::Move(k) => put(&mut bytes, 18, &k.to_be_bytes()),
            }
        }
        bytes
    }

    /// Check 10 for a light: states, ticks, motion numbers and a dwell that are too large.
    pub fn too_large(&self, site: &Site) -> bool {
        let s = site.states.len();
        self.start as usize >= s
            || self.goal as usize >= s
            || self.tick as usize > site.h
            || self.arrival as usize > site.h
            || self.dwell > MAX_DWELL
            || self.steps.iter().any(|step| matches!(*step, Step::Move(k) if k as usize >= site.motions.len()))
    }
}
