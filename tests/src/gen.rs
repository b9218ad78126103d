//! Seeded generators: sites, damaged files, boards, lights and calls.

use crate::literal::{encode, encode_fields, number, put, with_head, Centre, Light, Motion, Site, State, Step, Sweep};
use crate::literal::{CENTRE_LEN, HEAD_LEN, LAST_FRAME, MOTION_LEN, STATE_LEN, SWEEP_LEN};
use crate::literal::{MAX_CELLS, MAX_DWELL, MAX_H, MAX_MARGIN, MAX_MOTIONS, MAX_SITE, MAX_STATES, MAX_SWEEPS};
use crate::{literal_desk, plain};

/// A small generator of numbers (splitmix64), so that a seed gives the same run everywhere.
#[derive(Clone)]
pub struct Rng(u64);

impl Rng {
    pub fn new(seed: u64) -> Rng {
        Rng(seed)
    }

    pub fn draw(&mut self) -> u64 {
        self.0 = self.0.wrapping_add(0x9e37_79b9_7f4a_7c15);
        let mut x = self.0;
        x = (x ^ x >> 30).wrapping_mul(0xbf58_476d_1ce4_e5b9);
        x = (x ^ x >> 27).wrapping_mul(0x94d0_49bb_1331_11eb);
        x ^ x >> 31
    }

    /// Below n, which is not 0.
    pub fn below(&mut self, n: usize) -> usize {
        (self.draw() >> 11) as usize % n
    }

    /// From a to b, both included.
    pub fn range(&mut self, a: usize, b: usize) -> usize {
        a + self.below(b - a + 1)
    }

    pub fn percent(&mut self, p: usize) -> bool {
        self.below(100) < p
    }

    pub fn pick<T: Copy>(&mut self, from: &[T]) -> T {
        from[self.below(from.len())]
    }

    pub fn bytes(&mut self, n: usize) -> Vec<u8> {
        let mut all: Vec<u8> = (0..n.div_ceil(8)).flat_map(|_| self.draw().to_le_bytes()).collect();
        all.truncate(n);
        all
    }
}

#[derive(Clone, Copy, PartialEq, Eq, Debug)]
pub enum Size {
    Tiny,
    /// Cells in a row, joined as in 'Four in line', where tugs stand in each other's way.
    Row,
    Small,
    /// Few states and many ticks, so that a dwell can have more than 255.
    Long,
    Middle,
    /// As `Row` or `Small`, but with its cells spread over a hall of 256 to 1,000 of them, so that the low bytes of cells agree.
    Hall,
    /// More than 256 states, and up to as many as a site can have, with few ticks.
    Many,
    /// At or near every limit: H 1,000, 1,000 cells, 1,280 states, 4,000 motions, 65,536 bytes.
    Large,
}

/// A motion that keeps every rule: a chain of cells from one state's cell to the other's, each handing over to the
/// next; then other cells, repeated sweeps and sweeps cut in two, in any order.
pub fn motion(rng: &mut Rng, c: usize, states: &[State], d: usize, sweeps: usize) -> Motion {
    let from = rng.below(states.len());
    let to = (from + rng.range(1, states.len() - 1)) % states.len();
    motion_between(rng, c, states, from, to, d, sweeps)
}

pub fn motion_between(rng: &mut Rng, c: usize, states: &[State], from: usize, to: usize, d: usize, sweeps: usize) -> Motion {
    let (cell_from, cell_to) = (states[from].cell, states[to].cell);
    let mut cells = vec![cell_from];
    let inner = rng.below(3).min(sweeps.saturating_sub(2));
    cells.extend((0..inner).map(|_| rng.below(c) as u16));
    if cell_to != cell_from || inner > 0 || (sweeps > 1 && rng.percent(30)) {
        cells.push(cell_to);
    }
    // Offsets at which one cell hands over to the next: both are used there.
    let mut cuts: Vec<usize> = (1..cells.len()).map(|_| rng.range(0, d)).collect();
    cuts.sort_unstable();
    let mut all: Vec<Sweep> = Vec::new();
    for (i, &cell) in cells.iter().enumerate() {
        let mut a = if i == 0 { 0 } else { cuts[i - 1] };
        let mut b = if i + 1 == cells.len() { d } else { cuts[i] };
        if rng.percent(25) {
            a = rng.range(0, a);
        }
        if rng.percent(25) {
            b = rng.range(b, d);
        }
        all.push(Sweep { cell, a: a as u8, b: b as u8 });
    }
    while all.len() < sweeps {
        let i = rng.below(all.len());
        let Sweep { cell, a, b } = all[i];
        match rng.below(4) {
            0 if a < b => {
                // Cut in two that adjoin, or that share offsets.
                let mid = rng.range(a as usize, b as usize - 1) as u8;
                all[i].b = mid;
                let start = if rng.percent(70) { mid + 1 } else { rng.range(a as usize, mid as usize + 1) as u8 };
                all.push(Sweep { cell, a: start, b });
            }
            1 => all.push(all[i]),
            _ => {
                let x = rng.range(0, d);
                let y = d.min(x + rng.below(4));
                all.push(Sweep { cell: rng.below(c) as u16, a: x as u8, b: y as u8 });
            }
        }
    }
    for i in (1..all.len()).rev() {
        if rng.percent(60) {
            let j = rng.below(i + 1);
            all.swap(i, j);
        }
    }
    Motion { from: from as u16, to: to as u16, d: d as u8, sweeps: all }
}

/// A margin: often none, else mostly a small one or the largest.
pub fn any_margin(rng: &mut Rng) -> usize {
    match rng.below(10) {
        0..=2 => 0,
        3 | 4 => 1,
        5 | 6 => 2,
        7 | 8 => MAX_MARGIN,
        _ => rng.range(1, MAX_MARGIN),
    }
}

/// A coordinate: of any size, at its limits, or one whose bytes differ.
fn coordinate(rng: &mut Rng) -> u16 {
    let any = rng.draw() as u16;
    let near = rng.range(0, 4_000) as u16;
    rng.pick(&[any, any, any, near, near, near, 0, 65_535, 1, 255, 256, 32_768])
}

/// The centres of so many cells: in a line as in 'Four in line', down a line, all at one place, or anywhere.
pub fn centres(rng: &mut Rng, c: usize) -> Vec<Centre> {
    let (x, y) = (coordinate(rng), coordinate(rng));
    let kind = rng.below(8);
    let centre = |cell: usize| match kind {
        0 => Centre { x: (cell * 65_535 / c) as u16, y: (cell % 10) as u16 },
        1 => Centre { x: 65_535 - (cell * 65_535 / c) as u16, y: 65_535 },
        2 => Centre { x, y },
        3 => Centre { x: if cell % 2 == 0 { 0 } else { 65_535 }, y: if cell % 3 == 0 { 65_535 } else { 0 } },
        4 => Centre { x, y: coordinate(rng) },
        _ => Centre { x: coordinate(rng), y: coordinate(rng) },
    };
    (0..c).map(centre).collect()
}

/// How many of 100 sites have centres.
const WITH_CENTRES: usize = 40;

/// The site with centres, or, more often, without.
pub fn perhaps_centres(rng: &mut Rng, site: Site) -> Site {
    let centres = if rng.percent(WITH_CENTRES) { centres(rng, site.c) } else { vec![] };
    Site { centres, ..site }
}

fn row_site(rng: &mut Rng, margin: usize, more: usize) -> Site {
    let c = rng.range(2, 9);
    let mut states = Vec::new();
    for cell in 0..c as u16 {
        let speeds: &[u8] = rng.pick(&[&[0], &[0, 1], &[0, 1], &[0, 1], &[1], &[0, 1, 2], &[0, 0]]);
        states.extend(speeds.iter().map(|&speed| State { cell, speed }));
    }
    let mut motions = Vec::new();
    let back = rng.pick(&[0, 20, 40]);
    for from in 0..states.len() {
        for to in 0..states.len() {
            let (p, q) = (states[from].cell, states[to].cell);
            let share = if p + 1 == q || (p == q && from != to) {
                60
            } else if q + 1 == p {
                back
            } else {
                0
            };
            // Two motions between the same states make ties.
            for _ in 0..2 {
                if rng.percent(share) {
                    let (d, sweeps) = (rng.range(1, 3), rng.pick(&[1, 2, 2, 2, 3]));
                    motions.push(motion_between(rng, c, &states, from, to, d, sweeps));
                }
            }
        }
    }
    for i in (1..motions.len()).rev() {
        motions.swap(i, rng.below(i + 1));
    }
    Site { h: rng.range(8, 60) + more, c, margin, states, motions, centres: vec![] }
}

/// The number of cells of a large hall: often that of the new works, or at the limit, or just above what one byte can name.
fn hall_cells(rng: &mut Rng) -> usize {
    let any = rng.range(256, MAX_CELLS);
    rng.pick(&[640, 640, 640, MAX_CELLS, 256, 257, 513, any, any, any])
}

/// The same site in a hall of so many cells, more than 255. Its cells become cells whose low bytes agree, so that a lost high byte makes one cell of several,
/// and cells next to each other at that; those at the ends of the hall and of the low byte are among them. A site with centres gets other ones.
pub fn spread(rng: &mut Rng, mut site: Site, hall: usize) -> Site {
    let mut cells: Vec<u16> = Vec::new();
    while cells.len() < site.c {
        let any = rng.below(256);
        let low = rng.pick(&[0, 255, (hall - 1) % 256, any, any]);
        let alike: Vec<u16> = (low..hall).step_by(256).map(|cell| cell as u16).filter(|cell| !cells.contains(cell)).collect();
        cells.extend(alike);
    }
    for state in &mut site.states {
        state.cell = cells[state.cell as usize];
    }
    for sweep in site.motions.iter_mut().flat_map(|motion| &mut motion.sweeps) {
        sweep.cell = cells[sweep.cell as usize];
    }
    site.c = hall;
    if !site.centres.is_empty() {
        site.centres = centres(rng, hall);
    }
    site
}

fn any_states(rng: &mut Rng, c: usize, s: usize) -> Vec<State> {
    (0..s).map(|_| State { cell: rng.below(c) as u16, speed: if rng.percent(60) { 0 } else { rng.pick(&[1, 1, 2, 255]) } }).collect()
}

fn any_span(rng: &mut Rng) -> usize {
    match rng.below(20) {
        0 => rng.pick(&[63, 64, 65, 127, 128, 254, 255]),
        1..=3 => rng.range(1, 20),
        _ => rng.range(1, 4),
    }
}

/// A site with as many motions as wanted, or as its file has room for beside the centres of so many cells. The less room is left, the more of them stay
/// within a cell, where one sweep is enough.
fn crowded(rng: &mut Rng, h: usize, c: usize, margin: usize, s: usize, wanted: usize, drawn: usize) -> Site {
    const LEAST: usize = 3 + MOTION_LEN + SWEEP_LEN;
    let states = any_states(rng, c, s);
    let mut by_cell = vec![vec![]; c];
    states.iter().enumerate().for_each(|(state, at)| by_cell[at.cell as usize].push(state));
    by_cell.retain(|here| here.len() > 1);
    let mut room = MAX_SITE - (3 + HEAD_LEN) - s * (3 + STATE_LEN) - drawn * (3 + CENTRE_LEN);
    let mut motions = Vec::new();
    for left in (1..=wanted).rev() {
        let spare = room.saturating_sub(left * LEAST) / SWEEP_LEN;
        let sweeps = 1 + rng.below(1 + (2 * spare / left).min(5));
        let d = any_span(rng);
        let made = if sweeps == 1 && !by_cell.is_empty() {
            let i = rng.below(by_cell.len());
            let here = &by_cell[i];
            let (first, away) = (rng.below(here.len()), rng.range(1, here.len() - 1));
            motion_between(rng, c, &states, here[first], here[(first + away) % here.len()], d, 1)
        } else {
            motion(rng, c, &states, d, sweeps)
        };
        let len = 3 + MOTION_LEN + SWEEP_LEN * made.sweeps.len();
        if len <= room {
            room -= len;
            motions.push(made);
        }
    }
    Site { h, c, margin, states, motions, centres: vec![] }
}

fn many_site(rng: &mut Rng, margin: usize) -> Site {
    let any = rng.range(257, MAX_STATES);
    let (h, c, s) = (rng.range(16, 40), rng.range(1, 9), rng.pick(&[257, MAX_STATES, any]));
    let motions = rng.pick(&[300, 2_001, MAX_MOTIONS]);
    let hall = if rng.percent(50) { hall_cells(rng) } else { c };
    let drawn = if rng.percent(WITH_CENTRES) { hall } else { 0 };
    let many = crowded(rng, h, c, margin, s, motions, drawn);
    let spread = if hall > c { spread(rng, many, hall) } else { many };
    Site { centres: if drawn > 0 { centres(rng, hall) } else { vec![] }, ..spread }
}

fn large_site(rng: &mut Rng, margin: usize) -> Site {
    let (h, c) = (rng.pick(&[MAX_H, MAX_H, 999, 960]), rng.pick(&[MAX_CELLS, 999, 640, 40]));
    let (s, motions) = (rng.pick(&[MAX_STATES, MAX_STATES - 1, 65]), rng.pick(&[MAX_MOTIONS, MAX_MOTIONS - 1, 1_200]));
    let drawn = if rng.percent(WITH_CENTRES) { c } else { 0 };
    let mut large = crowded(rng, h, c, margin, s, motions, drawn);
    large.centres = if drawn > 0 { centres(rng, c) } else { vec![] };
    if rng.percent(60) {
        fill_up(rng, &mut large);
    }
    large
}

/// As many ticks, cells, states and motions as a site can have, with a centre for each cell or none, and as many bytes as such a file can.
pub fn largest(rng: &mut Rng, margin: usize, with_centres: bool) -> Site {
    let drawn = if with_centres { MAX_CELLS } else { 0 };
    loop {
        let mut site = crowded(rng, MAX_H, MAX_CELLS, margin, MAX_STATES, MAX_MOTIONS, drawn);
        site.centres = centres(rng, drawn);
        fill_up(rng, &mut site);
        // The last motions may find too little room.
        if site.motions.len() == MAX_MOTIONS {
            return site;
        }
    }
}

/// Repeats sweeps until the file has 65,536 bytes or, where its other fields don't let it, up to three less.
fn fill_up(rng: &mut Rng, site: &mut Site) {
    let mut len = encode(site).len();
    while len + SWEEP_LEN <= MAX_SITE {
        let i = rng.below(site.motions.len());
        let sweeps = &mut site.motions[i].sweeps;
        if sweeps.len() < MAX_SWEEPS {
            sweeps.push(sweeps[0]);
            len += SWEEP_LEN;
        }
    }
}

/// A site of a size; some have centres.
pub fn site(rng: &mut Rng, size: Size) -> Site {
    let site = sized(rng, size);
    match size {
        // Their files may have no room, so that they see to it themselves.
        Size::Many | Size::Large => site,
        _ => perhaps_centres(rng, site),
    }
}

fn sized(rng: &mut Rng, size: Size) -> Site {
    let margin = any_margin(rng);
    // With a wide margin tugs and closures get past each other only if they have more ticks.
    let more = rng.pick(&[0, 2, 4]) * margin;
    let (h, c, s, most_motions) = match size {
        Size::Row => return row_site(rng, margin, more),
        Size::Hall => {
            let small = rng.pick(&[Size::Row, Size::Row, Size::Small]);
            let (small, hall) = (sized(rng, small), hall_cells(rng));
            return spread(rng, small, hall);
        }
        Size::Many => return many_site(rng, margin),
        Size::Large => return large_site(rng, margin),
        Size::Tiny => (rng.range(1, 12) + more, rng.range(1, 4), rng.range(1, 4), rng.below(9)),
        Size::Small => (rng.range(5, 40) + more, rng.range(1, 9), rng.range(2, 10), rng.range(1, 30)),
        Size::Long => (rng.range(300, 500), rng.range(1, 4), rng.range(1, 5), rng.below(12)),
        Size::Middle => (rng.range(60, 200), rng.range(3, 40), rng.range(10, 90), rng.range(30, 240)),
    };
    let states = any_states(rng, c, s);
    let mut motions = Vec::new();
    while motions.len() < most_motions && s > 1 {
        let (d, sweeps) = (any_span(rng), rng.pick(&[1, 2, 2, 2, 3, 3, 4, 5, 8, 15, 16]));
        motions.push(motion(rng, c, &states, d, sweeps));
    }
    Site { h, c, margin, states, motions, centres: vec![] }
}

fn join(fields: &[(u8, Vec<u8>)]) -> Vec<u8> {
    let mut bytes = Vec::new();
    for (tag, value) in fields {
        put(&mut bytes, *tag, value);
    }
    bytes
}

/// A file of the site with faults of the given numbers, 1 to 6, so that at most the least of them is its refusal.
/// Some faults hide each other, so the file may be refused with another number, or accepted.
pub fn damaged(rng: &mut Rng, site: &Site, faults: &[u8]) -> Vec<u8> {
    damaged_by(rng, site, faults, damage_layout)
}

/// As `damaged`, but number 4 by the centres. A site without centres gets some.
pub fn damaged_centres(rng: &mut Rng, site: &Site, faults: &[u8]) -> Vec<u8> {
    if !site.centres.is_empty() {
        return damaged_by(rng, site, faults, damage_centres);
    }
    let drawn = Site { centres: centres(rng, site.c), ..site.clone() };
    damaged_by(rng, &drawn, faults, damage_centres)
}

/// A file's fields, each a tag and a value.
type Fields = Vec<(u8, Vec<u8>)>;

/// `layout` does what number 4 stands for.
fn damaged_by(rng: &mut Rng, site: &Site, faults: &[u8], layout: fn(&mut Rng, &Site, &mut Fields)) -> Vec<u8> {
    let mut fields = encode_fields(site);
    let (s, c) = (site.states.len(), site.c);
    let has_motions = !site.motions.is_empty();
    // Values first, layout next, bytes last: the later kinds move what the earlier ones look for.
    if faults.contains(&6) && has_motions {
        let i = 1 + s + rng.below(site.motions.len());
        damage_motion(rng, site, &mut fields[i].1);
    }
    if faults.contains(&5) {
        let i = 1 + rng.below(s);
        damage_cell(rng, c, &mut fields[i].1[..2]);
    }
    if faults.contains(&4) {
        layout(rng, site, &mut fields);
    }
    if faults.contains(&3) {
        damage_head(rng, &mut fields);
    }
    let mut bytes = join(&fields);
    if faults.contains(&2) {
        match rng.below(5) {
            0 => bytes.truncate(bytes.len().saturating_sub(rng.range(1, 4))),
            1 => {
                let n = rng.below(bytes.len() + 1);
                bytes.truncate(n);
            }
            2 => {
                let n = rng.range(1, 2);
                let more = rng.bytes(n);
                bytes.extend(more);
            }
            3 => bytes.extend([3, 0, rng.range(1, 255) as u8]),
            _ => {
                // A length that runs past the end, anywhere.
                let i = rng.below(fields.len().max(1));
                let at: usize = fields[..i].iter().map(|field| 3 + field.1.len()).sum();
                if at + 1 < bytes.len() {
                    bytes[at + 1] = 255;
                }
            }
        }
    }
    if faults.contains(&1) {
        let wanted = MAX_SITE + 1 + if rng.percent(70) { 0 } else { rng.below(4_000) };
        if rng.percent(50) {
            let last = fields.last().cloned().unwrap_or_default();
            while bytes.len() < wanted {
                put(&mut bytes, last.0, &last.1);
            }
        }
        bytes.resize(wanted.max(bytes.len()), 3);
    }
    bytes
}

/// A number with the same low byte that is at least a limit, the least one.
fn past_with_low_byte(n: usize, limit: usize) -> usize {
    n + (limit - n).div_ceil(256) * 256
}

/// A cell that the hall does not have: just past it, by far, or right in its low byte only.
fn damage_cell(rng: &mut Rng, c: usize, cell: &mut [u8]) {
    let any = rng.range(c, 65_535);
    let alike = past_with_low_byte(number(cell), c);
    let alike_by_far = number(cell) + 0xff00 - number(&cell[..1]) * 256;
    let wrong = rng.pick(&[c, c, c + 1, alike, alike, alike_by_far, 65_535, any]);
    cell.copy_from_slice(&(wrong as u16).to_be_bytes());
}

/// A number above a limit, 0, or one that has a right low byte only.
fn out_of_range(rng: &mut Rng, limit: usize) -> [u8; 2] {
    (rng.pick(&[0, limit + 1, limit + 1, past_with_low_byte(1, limit + 1), 32_768 + limit, 65_535]) as u16).to_be_bytes()
}

/// The head as it was when a cell had one byte; and before there was a margin.
fn old_head(head: &mut Vec<u8>, margin: bool) {
    head.remove(2);
    head.truncate(if margin { 6 } else { 5 });
}

/// The sweeps as they were when a cell had one byte.
fn old_sweeps(motion: &mut Vec<u8>) {
    let sweeps: Vec<u8> = motion[MOTION_LEN..].chunks(SWEEP_LEN).flat_map(|w| w[1..].to_vec()).collect();
    motion.truncate(MOTION_LEN);
    motion.extend(sweeps);
}

fn damage_head(rng: &mut Rng, fields: &mut Fields) {
    let head = &mut fields[0].1;
    match rng.below(18) {
        0..=2 => head[..2].copy_from_slice(&out_of_range(rng, MAX_H)),
        3..=5 => head[2..4].copy_from_slice(&out_of_range(rng, MAX_CELLS)),
        6..=8 => head[4..6].copy_from_slice(&out_of_range(rng, MAX_STATES)),
        9 => old_head(head, true),
        10 => old_head(head, false),
        11 => head.truncate(rng.pick(&[0, 4, 5, 6])),
        12 => head.push(0),
        13 => fields[0].0 = rng.pick(&[0, 2, 3, 16, 255]),
        14 => {
            fields.remove(0);
        }
        15 | 16 => head[6] = rng.pick(&[21, 21, 22, 32, 128, 255]),
        _ => fields.clear(),
    }
}

fn damage_layout(rng: &mut Rng, site: &Site, fields: &mut Fields) {
    let (s, motions) = (site.states.len(), site.motions.len());
    let state = 1 + rng.below(s);
    let motion = if motions > 0 { 1 + s + rng.below(motions) } else { state };
    match rng.below(18) {
        0 => fields[state].0 = rng.pick(&[0, 1, 3, 17]),
        1 => fields[motion].0 = rng.pick(&[0, 1, 2, 4]),
        2 => fields[state].1.push(0),
        3 => {
            fields[state].1.pop();
        }
        4 => {
            fields.remove(state);
        }
        5 => {
            let copy = fields[state].clone();
            fields.insert(state, copy);
        }
        6 => {
            let copy = fields[state].clone();
            fields.push(copy);
        }
        7 => fields[motion].1.truncate(MOTION_LEN),
        8 => {
            // 17 sweeps.
            let value = &mut fields[motion].1;
            value.truncate(MOTION_LEN);
            value.resize(MOTION_LEN + SWEEP_LEN * (MAX_SWEEPS + 1), 0);
        }
        9 => {
            let n = rng.range(1, SWEEP_LEN - 1);
            fields[motion].1.extend(vec![0; n]);
        }
        10 => {
            let head = fields[0].clone();
            fields.push(head);
        }
        11 => fields.push((rng.pick(&[0, 2, 4, 255]), vec![])),
        12 if motions > 0 => fields.swap(state, motion),
        13 if motions > 0 && rng.percent(30) => {
            // Too many motions, each short enough for the file's limit.
            let mut short = fields[motion].clone();
            short.1.truncate(MOTION_LEN + SWEEP_LEN);
            fields.truncate(1 + s);
            fields.extend(vec![short; MAX_MOTIONS + 1]);
        }
        // As it was when a cell had one byte.
        14 => {
            fields[state].1.remove(0);
        }
        15 | 16 if motions > 0 => old_sweeps(&mut fields[motion].1),
        _ => fields[motion].1.truncate(4),
    }
}

/// Wrong numbers, lengths, tags and places of centres; sometimes all is right with them, and in a hall of few cells a wrong number may be the right one.
fn damage_centres(rng: &mut Rng, site: &Site, fields: &mut Fields) {
    let (s, m, c) = (site.states.len(), site.motions.len(), site.c);
    let first = 1 + s + m;
    let centre = first + rng.below(c);
    let moved = |fields: &mut Fields, from: usize, to: usize| {
        let field = fields.remove(from);
        fields.insert(to, field);
    };
    // As many as the low byte of C says.
    if c > 255 && rng.percent(20) {
        fields.truncate(first + c % 256);
        return;
    }
    match rng.below(21) {
        0 | 1 => {
            fields.remove(centre);
        }
        2 | 3 => {
            let copy = fields[centre].clone();
            fields.push(copy);
        }
        4 => fields.truncate(first + 1),
        5 => fields.truncate(first + rng.below(c)),
        6 => {
            let copies = fields[first..].to_vec();
            fields.extend(copies);
        }
        // As many as there are states.
        7 => {
            let copy = fields[centre].clone();
            fields.resize(first + s, copy);
        }
        8..=10 => fields[centre].1.resize(rng.pick(&[0, 3, 3, 5, 5, 8, 256 + CENTRE_LEN]), 0),
        11 | 12 => fields[centre].0 = rng.pick(&[5, 5, 5, 0, 1, 2, 3, 36, 132]),
        // One of them among the motions, between states and motions, among the states or before these; all of them before the motions.
        13 => moved(fields, centre, 1 + s + rng.below(m + 1)),
        14 => moved(fields, centre, 1 + s),
        15 => moved(fields, centre, 1 + rng.below(s + 1)),
        16 => fields[1 + s..].rotate_left(m),
        // A motion or a state behind them, or the head again.
        17 | 18 if m > 0 => {
            let last = fields.len() - 1;
            moved(fields, 1 + s + rng.below(m), rng.pick(&[last, last, centre]));
        }
        19 => {
            let copy = fields[rng.pick(&[0, s])].clone();
            fields.push(copy);
        }
        _ => {}
    }
}

/// Breaks one rule of a motion, or with a little luck none.
fn damage_motion(rng: &mut Rng, site: &Site, value: &mut Vec<u8>) {
    let s = site.states.len();
    let sweeps = (value.len() - MOTION_LEN) / SWEEP_LEN;
    let w = MOTION_LEN + SWEEP_LEN * rng.below(sweeps);
    let d = value[4];
    match rng.below(13) {
        0 => value[..2].copy_from_slice(&(s as u16).to_be_bytes()),
        1 => value[2..4].copy_from_slice(&(s as u16 + rng.below(300) as u16).to_be_bytes()),
        2 => value[0] = rng.range(1, 255) as u8,
        3 => value.copy_within(0..2, 2),
        4 => value[4] = 0,
        5 => damage_cell(rng, site.c, &mut value[w..w + 2]),
        6 => {
            value[w + 2] = value[w + 3].wrapping_add(1);
        }
        7 => value[w + 3] = d.saturating_add(1),
        8 => value[4] = d.wrapping_add(1),
        9 => value[..2].copy_from_slice(&(rng.below(s) as u16).to_be_bytes()),
        10 => value[2..4].copy_from_slice(&(rng.below(s) as u16).to_be_bytes()),
        11 => {
            // Without a sweep the chain may be broken.
            if sweeps > 1 {
                value.drain(w..w + SWEEP_LEN);
            }
        }
        _ => {
            // Every sweep covers no more than one offset, so nothing hands over but by adjoining.
            let [from, to] = [&value[..2], &value[2..4]].map(|state| site.states[number(state).min(s - 1)].cell);
            value.truncate(MOTION_LEN);
            value.extend(Sweep { cell: from, a: 0, b: 0 }.encode());
            for j in 1..=d.min(15) {
                let cell = if j == d.min(15) || rng.percent(30) { to } else { from };
                let at = if j == 15 { d } else { j };
                value.extend(Sweep { cell, a: at, b: at }.encode());
            }
        }
    }
}

/// Changes some bytes of a file.
pub fn scratch(rng: &mut Rng, bytes: &mut [u8]) {
    for _ in 0..rng.pick(&[1, 1, 1, 2, 3, 8]) {
        if !bytes.is_empty() {
            let i = rng.below(bytes.len());
            bytes[i] = rng.pick(&[0, 1, 2, 3, 255, bytes[i].wrapping_add(1), bytes[i].wrapping_sub(1), bytes[i] ^ 128]);
        }
    }
}

/// A board with any bytes, of the site's length.
pub fn board(rng: &mut Rng, site: &Site) -> Vec<u8> {
    let mut bytes = vec![0; site.board_len()];
    let edition = match rng.below(8) {
        0 => u32::MAX,
        1 => u32::MAX - 1,
        2 => 0,
        3 => rng.pick(&[255, 256, 65_535, 16_777_215]),
        _ => rng.draw() as u32,
    };
    bytes[..4].copy_from_slice(&edition.to_be_bytes());
    let any = rng.draw() as u8;
    let holders: Vec<u8> = (0..rng.range(1, 4)).map(|_| rng.pick(&[1, 7, 198, 199, 200, 201, 254, 255, 255, any])).collect();
    let ticks = site.h + 1;
    match rng.below(12) {
        0 => {}
        1 => {
            let all = rng.bytes(site.c * ticks);
            bytes[4..].copy_from_slice(&all);
        }
        2 => bytes[4..].fill(rng.pick(&holders)),
        3..=5 => {
            let share = rng.pick(&[1, 3, 10, 30, 60]);
            for byte in &mut bytes[4..] {
                if rng.percent(share) {
                    *byte = rng.pick(&holders);
                }
            }
        }
        6 | 7 => {
            // Few enough for a wide margin.
            for cell in 0..site.c {
                let (first, holder) = (rng.below(ticks), rng.pick(&holders));
                let last = (first + rng.below(3)).min(site.h);
                bytes[4 + cell * ticks..][first..=last].fill(holder);
            }
        }
        _ => {
            for cell in 0..site.c {
                for _ in 0..rng.below(4) {
                    let first = rng.below(ticks);
                    let last = (first + rng.below(1 + ticks / 4)).min(site.h);
                    let holder = rng.pick(&holders);
                    bytes[4 + cell * ticks..][first..=last].fill(holder);
                }
            }
        }
    }
    bytes
}

/// A number that should be below a limit. With a chance of `bad` in 100 it is at the limit, past it, or right in its low byte only.
fn near(rng: &mut Rng, limit: usize, bad: usize) -> u16 {
    let good = rng.below(limit);
    let n = if rng.percent(bad) {
        rng.pick(&[limit, limit + 1, past_with_low_byte(good, limit), 65_535])
    } else {
        rng.pick(&[good, good, good, good, good, 0, limit - 1])
    };
    n.min(65_535) as u16
}

/// A cell. In a large hall it is mostly that of a state, or another one with the same low byte; with a chance of `bad` in 100 there is no such cell.
fn any_cell(rng: &mut Rng, site: &Site, bad: usize) -> u16 {
    if site.c < 256 || rng.percent(20) {
        return near(rng, site.c, bad);
    }
    if rng.percent(bad) {
        return near(rng, site.c, 100);
    }
    let cell = rng.pick(&site.states).cell;
    let alike: Vec<u16> = (cell % 256..site.c as u16).step_by(256).collect();
    if rng.percent(60) {
        cell
    } else {
        rng.pick(&alike)
    }
}

/// A length that should be at least some number: mostly just that, else longer, or with a chance of `bad` in 100 too short.
fn length(rng: &mut Rng, needed: usize, bad: usize) -> usize {
    if rng.percent(bad) {
        let short = rng.below(needed);
        return rng.pick(&[needed - 1, needed - 1, 0, short]);
    }
    needed + if rng.percent(20) { rng.range(1, 40) } else { 0 }
}

/// A number near a limit that can be kept, on both sides of it.
fn about(rng: &mut Rng, limit: usize) -> u16 {
    rng.pick(&[limit.saturating_sub(1), limit, limit, limit + 1, limit + 1, limit + 2]).min(65_535) as u16
}

/// A dwell that is too large: just so, by far, or right in its low byte only.
fn large_dwell(rng: &mut Rng) -> u16 {
    let short = rng.below(8) as u16;
    rng.pick(&[MAX_DWELL + 1, MAX_DWELL + 1, MAX_DWELL + 2, 1_024 + short, 65_535])
}

/// A dwell where `left` ticks remain until H: often none, else short, of any length or as long as these, or at a limit.
fn dwell(rng: &mut Rng, left: usize, bad: usize) -> u16 {
    if rng.percent(bad / 2) {
        return large_dwell(rng);
    }
    match rng.below(12) {
        0..=5 => 0,
        6..=8 => rng.range(1, 4) as u16,
        9 => rng.range(0, left) as u16,
        10 => about(rng, left),
        _ => rng.pick(&[255, 256, 257, MAX_DWELL - 1, MAX_DWELL]),
    }
}

/// How often an argument is bad: mostly seldom, so that calls are accepted or meet the late refusals;
/// sometimes often, so that several refusals apply and their order shows.
fn badness(rng: &mut Rng) -> usize {
    rng.pick(&[0, 2, 2, 2, 5, 5, 10, 45])
}

#[derive(Clone, Debug)]
pub enum Call {
    Open,
    Interval { cell: u16, out: usize },
    Route { tug: u8, start: u16, tick: u16, goal: u16, dwell: u16, out: usize, work: usize },
    Audit { light: Vec<u8> },
    Post { light: Vec<u8> },
    Close { holder: u8, cell: u16, first: u16, last: u16 },
    Withdraw { holder: u8 },
    Draw { light: Vec<u8>, step: u16, frame: u8 },
}

/// The calls on a site.
pub const CALLS: [&str; 8] = ["open", "interval", "route", "audit", "post", "close", "withdraw", "draw"];

/// Every number that a call can return, as the pair of the call's place in `CALLS` and the number, in the order in which they are asked.
pub fn possible() -> Vec<(usize, u8)> {
    let own: [&[u8]; 7] =
        [&[], &[10, 14], &[9, 10, 11, 12, 14, 18], &[8, 9, 10, 11, 12, 15, 16, 17], &[8, 9, 10, 11, 12, 15, 16, 17], &[9, 10, 12, 15, 17], &[9, 13, 15]];
    let all = (0..7).flat_map(|kind| (0..=7).chain(own[kind].iter().copied()).map(move |number| (kind, number)));
    // Draw has no board.
    all.chain((0..=6).chain([8, 10, 20]).map(|number| (7, number))).collect()
}

impl Call {
    /// Its place in `CALLS`.
    pub fn kind(&self) -> usize {
        match self {
            Call::Open => 0,
            Call::Interval { .. } => 1,
            Call::Route { .. } => 2,
            Call::Audit { .. } => 3,
            Call::Post { .. } => 4,
            Call::Close { .. } => 5,
            Call::Withdraw { .. } => 6,
            Call::Draw { .. } => 7,
        }
    }
}

/// Makes calls for one site; `lights` are those of earlier routes.
pub struct Caller<'a> {
    pub site: &'a Site,
    pub file: &'a [u8],
    pub lights: Vec<Vec<u8>>,
}

impl Caller<'_> {
    /// A holder's number in a range. With a chance of `bad` in 100 it is out of the range, and with the same chance it may stand.
    fn holder(&self, rng: &mut Rng, board: &[u8], want: (u8, u8), bad: usize) -> u8 {
        if rng.percent(bad) {
            return rng.pick(&[0, 255, want.0.wrapping_sub(1), want.1.wrapping_add(1)]);
        }
        if rng.percent(2 + bad) {
            return self.holder_on(rng, board);
        }
        let any = rng.range(want.0 as usize, want.1 as usize) as u8;
        rng.pick(&[any, any, any, any, any, any, want.0, want.1])
    }

    /// The number of a holder that stands, if a few looks find one.
    fn holder_on(&self, rng: &mut Rng, board: &[u8]) -> u8 {
        for _ in 0..200 {
            let byte = if board.len() > 4 { board[4 + rng.below(board.len() - 4)] } else { 0 };
            if byte != 0 {
                return byte;
            }
        }
        rng.range(1, 254) as u8
    }

    fn standing_state(&self, rng: &mut Rng) -> u16 {
        for _ in 0..20 {
            let state = rng.below(self.site.states.len());
            if self.site.standing(state) {
                return state as u16;
            }
        }
        0
    }

    /// A cell and a tick just within the margin of a run of held ticks or just past it, before or behind the run, if a few looks find one.
    fn beside_held(&self, rng: &mut Rng, board: &[u8]) -> Option<(usize, usize)> {
        let ticks = self.site.h + 1;
        if board.len() != self.site.board_len() {
            return None;
        }
        let mut looks = (0..40).map(|_| rng.below(board.len() - 4));
        let at = looks.find(|&at| board[4 + at] != 0)?;
        let (cell, held) = (at / ticks, at % ticks);
        let row = &board[4 + cell * ticks..][..ticks];
        let away = self.site.margin + rng.pick(&[0, 0, 1, 2]);
        let tick = if rng.percent(50) {
            held + row[held..].iter().take_while(|&&byte| byte != 0).count() - 1 + away
        } else {
            (held + 1).checked_sub(row[..=held].iter().rev().take_while(|&&byte| byte != 0).count() + away)?
        };
        (tick < ticks).then_some((cell, tick))
    }

    /// A start state and tick, sometimes in a cell that is held nearby.
    fn start(&self, rng: &mut Rng, board: &[u8], bad: usize) -> (u16, u16) {
        if rng.percent(15) {
            if let Some((cell, tick)) = self.beside_held(rng, board) {
                let here: Vec<usize> = (0..self.site.states.len()).filter(|&state| self.site.cell(state) == cell).collect();
                if !here.is_empty() {
                    return (rng.pick(&here) as u16, tick as u16);
                }
            }
        }
        (near(rng, self.site.states.len(), bad / 2), self.start_tick(rng, bad / 2))
    }

    fn start_tick(&self, rng: &mut Rng, bad: usize) -> u16 {
        let early = rng.below(1 + self.site.h / 3) as u16;
        if rng.percent(60) {
            early
        } else {
            near(rng, self.site.h + 1, bad)
        }
    }

    /// The arrival and light of a route on this board, if it is granted.
    fn ask(&self, board: &[u8], tug: u8, start: u16, tick: u16, goal: u16, dwell: u16) -> Option<(u16, Vec<u8>)> {
        self.ask_with(self.file, board, tug, start, tick, goal, dwell)
    }

    #[allow(clippy::too_many_arguments)]
    fn ask_with(&self, file: &[u8], board: &[u8], tug: u8, start: u16, tick: u16, goal: u16, dwell: u16) -> Option<(u16, Vec<u8>)> {
        let mut out = vec![0; self.site.output_len()];
        let mut work = vec![0; self.site.states.len() * (self.site.h + 1)];
        let answer = plain::route(file, board, tug, start, tick, goal, dwell, &mut out, &mut work);
        out.truncate(answer.value as usize);
        (answer.number == 0).then_some((answer.arrival as u16, out))
    }

    /// The longest dwell that a state's cell has room for from a tick on.
    fn stay(&self, board: &[u8], state: u16, tick: u16) -> usize {
        if board.len() != self.site.board_len() || state as usize >= self.site.states.len() {
            return 0;
        }
        let (free, cell) = (literal_desk::free(self.site, board), self.site.cell(state as usize));
        (tick as usize + 1..=self.site.h).take_while(|&at| free(cell, at)).count()
    }

    fn route(&self, rng: &mut Rng, board: &[u8], bad: usize) -> Call {
        let (s, h) = (self.site.states.len(), self.site.h);
        let tug = self.holder(rng, board, (1, 199), bad);
        let (start, tick) = self.start(rng, board, bad);
        let goal = if rng.percent(95 - bad) { self.standing_state(rng) } else { near(rng, s, bad) };
        let mut dwell = dwell(rng, h.saturating_sub(tick as usize), bad);
        if rng.percent(35) {
            // About what the goal's cell has room for at the first arrival, so that tugs come too early to unload. Mostly where the cell is held
            // again before H: elsewhere a later arrival has even less room.
            if let Some((arrival, _)) = self.ask(board, tug, start, tick, goal, 0) {
                let stay = self.stay(board, goal, arrival);
                if arrival as usize + stay < h || rng.percent(25) {
                    dwell = about(rng, stay);
                }
            }
        }
        Call::Route { tug, start, tick, goal, dwell, out: length(rng, self.site.output_len(), bad), work: length(rng, s * (h + 1), bad) }
    }

    /// A light whose states join: waits and motions as they come, mostly with the right goal and arrival.
    fn walk(&self, rng: &mut Rng, board: &[u8], bad: usize) -> Light {
        let site = self.site;
        let (start, tick) = self.start(rng, board, bad);
        let start = start.min(site.states.len() as u16 - 1);
        let (mut state, mut at) = (start as usize, tick as usize);
        let mut steps = Vec::new();
        for _ in 0..rng.below(9) {
            let after_wait = matches!(steps.last(), Some(Step::Wait(_)));
            if rng.percent(40) && !after_wait && (site.standing(state) || rng.percent(5)) {
                let n = rng.pick(&[1, 1, 2, 3, 5]);
                steps.push(Step::Wait(n));
                at += n as usize;
            } else {
                let out: Vec<usize> = (0..site.motions.len()).filter(|&k| site.motions[k].from as usize == state).collect();
                if out.is_empty() {
                    break;
                }
                let k = rng.pick(&out);
                steps.push(Step::Move(k as u16));
                at += site.motions[k].d as usize;
                state = site.motions[k].to as usize;
            }
        }
        let edition = if board.len() >= 4 { number(&board[..4]) as u32 } else { 0 };
        let goal = if rng.percent(95) { state as u16 } else { self.standing_state(rng) };
        let arrival = at.min(65_535) as u16;
        let dwell = dwell(rng, site.h.saturating_sub(at), bad);
        Light { edition, tug: self.holder(rng, board, (1, 199), bad), start, tick, goal, arrival, dwell, steps }
    }

    /// The light of a route on this board, if the one tried is granted; sometimes with another dwell.
    fn routed(&self, rng: &mut Rng, board: &[u8]) -> Option<Vec<u8>> {
        let (s, h) = (self.site.states.len(), self.site.h);
        let tug = rng.range(1, 199) as u8;
        let (start, tick, goal) = (rng.below(s) as u16, rng.below(1 + h / 2) as u16, self.standing_state(rng));
        let dwell = dwell(rng, h - tick as usize, 0);
        if self.site.margin > 0 && rng.percent(50) {
            // As if the margin were smaller, so that the light may come too near to others.
            let margin = rng.pick(&[self.site.margin - 1, self.site.margin - 1, self.site.margin - 1, 0]);
            let file = encode(&Site { margin, ..self.site.clone() });
            return self.ask_with(&file, board, tug, start, tick, goal, dwell).map(|granted| granted.1);
        }
        let (arrival, bytes) = self.ask(board, tug, start, tick, goal, dwell)?;
        if rng.percent(80) {
            return Some(bytes);
        }
        // Unloads for about as long as it can, whatever the route was asked for.
        let mut light = Light::read(&bytes)?;
        light.dwell = about(rng, self.stay(board, goal, arrival));
        Some(light.encode())
    }

    /// Any bytes: lights of routes, walks and earlier lights, as they are or changed.
    fn light(&self, rng: &mut Rng, board: &[u8], bad: usize) -> Vec<u8> {
        let base = match rng.below(20) {
            0 => {
                let n = rng.below(60);
                return rng.bytes(n);
            }
            1 => return Vec::new(),
            2 => {
                // At the length limit, and one step past it.
                let steps = rng.pick(&[1_000, 1_000, 1_001]);
                let mut light = self.walk(rng, board, bad);
                let k = rng.below(self.site.motions.len().max(1)) as u16;
                light.steps = (0..steps).map(|i| if i % 2 == 0 { Step::Wait(1) } else { Step::Move(k) }).collect();
                light.encode()
            }
            3..=8 if !self.lights.is_empty() => self.lights[self.lights.len() - 1 - rng.below(self.lights.len().min(3))].clone(),
            9..=13 => self.walk(rng, board, bad).encode(),
            _ => self.routed(rng, board).unwrap_or_else(|| self.walk(rng, board, bad).encode()),
        };
        if bad > 40 {
            return self.spoilt(rng, base, board, bad);
        }
        if rng.percent(60) {
            return base;
        }
        self.changed(rng, base, board)
    }

    /// A light with several bad fields at once.
    fn spoilt(&self, rng: &mut Rng, bytes: Vec<u8>, board: &[u8], bad: usize) -> Vec<u8> {
        let Some(mut light) = Light::read(&bytes) else { return bytes };
        let (s, h, m) = (self.site.states.len(), self.site.h, self.site.motions.len().max(1));
        light.tug = self.holder(rng, board, (1, 199), bad);
        light.goal = near(rng, s, bad / 4);
        if rng.percent(bad) {
            light.edition ^= 1;
        }
        match rng.below(9) {
            0 => light.start = near(rng, s, bad),
            1 => light.tick = near(rng, h + 1, bad),
            2 => light.arrival = near(rng, h + 1, bad),
            3 => light.steps.push(Step::Move(near(rng, m, bad))),
            4 => light.steps.push(Step::Wait(0)),
            5 => light.dwell = large_dwell(rng),
            _ => {}
        }
        light.encode()
    }

    fn changed(&self, rng: &mut Rng, mut bytes: Vec<u8>, board: &[u8]) -> Vec<u8> {
        match rng.below(14) {
            0 => {
                let n = rng.below(bytes.len() + 1);
                bytes.truncate(n);
                return bytes;
            }
            1 => {
                let n = rng.range(1, 5);
                let more = rng.bytes(n);
                bytes.extend(more);
                return bytes;
            }
            2 | 3 => {
                scratch(rng, &mut bytes);
                return bytes;
            }
            4 => {
                // A head of another length, mostly the one without a dwell.
                let len = rng.pick(&[13, 13, 13, 14, 16, 17]);
                return with_head(&bytes, len).unwrap_or(bytes);
            }
            _ => {}
        }
        let Some(mut light) = Light::read(&bytes) else { return bytes };
        let (s, h, m) = (self.site.states.len(), self.site.h, self.site.motions.len().max(1));
        match rng.below(20) {
            0 => light.edition = light.edition.wrapping_add(rng.pick(&[1, u32::MAX, 256])),
            1 => light.tug = rng.pick(&[0, 199, 200, 255, 1]),
            2 => light.start = near(rng, s, 25),
            3 => light.tick = near(rng, h + 1, 25),
            4 => light.goal = near(rng, s, 25),
            5 => light.arrival = near(rng, h + 1, 25),
            6 => light.arrival = light.arrival.wrapping_add(1),
            7 => {
                light.steps.pop();
            }
            8 => light.steps.push(Step::Wait(rng.pick(&[0, 1, 1, 65_535]))),
            9 => light.steps.push(Step::Move(near(rng, m, 25))),
            10 => light.steps.insert(rng.below(light.steps.len() + 1), Step::Move(near(rng, m, 25))),
            11 if !light.steps.is_empty() => {
                // A wait cut in two is against the layout; a motion for a wait is not.
                let i = rng.below(light.steps.len());
                if let Step::Wait(n) = light.steps[i] {
                    light.steps[i] = Step::Wait(n - 1);
                    light.steps.insert(i, Step::Wait(1));
                }
            }
            12 if !light.steps.is_empty() => {
                let i = rng.below(light.steps.len());
                light.steps[i] = match light.steps[i] {
                    Step::Wait(n) => Step::Wait(n.wrapping_add(1)),
                    Step::Move(_) => Step::Move(near(rng, m, 25)),
                };
            }
            13..=17 => light.dwell = about(rng, self.stay(board, light.goal, light.arrival)),
            18 => light.dwell = rng.pick(&[MAX_DWELL, MAX_DWELL + 1, light.dwell.swap_bytes(), light.dwell.wrapping_add(1), light.dwell.wrapping_sub(1)]),
            _ => {
                // A longer stay at the end, which holds more pairs.
                if !matches!(light.steps.last(), Some(Step::Wait(_))) {
                    let n = rng.range(1, 4) as u16;
                    light.steps.push(Step::Wait(n));
                    light.arrival = light.arrival.wrapping_add(n);
                }
            }
        }
        light.encode()
    }

    fn close(&self, rng: &mut Rng, board: &[u8], bad: usize) -> Call {
        let ticks = self.site.h + 1;
        if !self.lights.is_empty() && rng.percent(25) {
            // Short after a tug that was routed here arrives at its goal, so that others can't unload there.
            if let Some(light) = Light::read(&self.lights[self.lights.len() - 1]) {
                let first = light.arrival + rng.range(1, 4) as u16;
                let last = first + rng.below(3) as u16;
                return Call::Close { holder: self.holder(rng, board, (200, 254), bad), cell: self.site.cell(light.goal as usize) as u16, first, last };
            }
        }
        if rng.percent(45) {
            if let Some((cell, tick)) = self.beside_held(rng, board) {
                let (first, last) = (tick.saturating_sub(rng.below(3)), (tick + rng.below(3)).min(self.site.h));
                let (first, last) = rng.pick(&[(tick, tick), (first, tick), (tick, last)]);
                return Call::Close { holder: self.holder(rng, board, (200, 254), bad), cell: cell as u16, first: first as u16, last: last as u16 };
            }
        }
        let first = near(rng, ticks, bad / 3);
        let last = if rng.percent(bad / 3) {
            rng.pick(&[first.wrapping_sub(1), 0, ticks as u16, 65_535])
        } else {
            let long = rng.pick(&[1, 1 + ticks / 4, ticks]);
            let len = rng.below(long);
            (first as usize + len).min(self.site.h).max(first as usize) as u16
        };
        Call::Close { holder: self.holder(rng, board, (200, 254), bad), cell: any_cell(rng, self.site, bad / 3), first, last }
    }

    fn withdraw(&self, rng: &mut Rng, board: &[u8], bad: usize) -> Call {
        let holder = if rng.percent(60) { self.holder_on(rng, board) } else { self.holder(rng, board, (1, 254), bad) };
        Call::Withdraw { holder }
    }

    fn interval(&self, rng: &mut Rng, bad: usize) -> Call {
        Call::Interval { cell: any_cell(rng, self.site, bad), out: length(rng, self.site.h + 2, bad) }
    }

    /// A light in layout whose motions are any of the site's, which need not join; often with a tug, a goal or an arrival that an audit refuses.
    fn loose(&self, rng: &mut Rng, board: &[u8]) -> Light {
        let (s, m) = (self.site.states.len(), self.site.motions.len());
        let mut steps: Vec<Step> = Vec::new();
        for _ in 0..rng.pick(&[1, 2, 3, 5, 9, 300]) {
            let may_wait = !matches!(steps.last(), Some(Step::Wait(_)));
            if may_wait && (m == 0 || rng.percent(35)) {
                steps.push(Step::Wait(rng.pick(&[1, 2, 255, 256, 65_535])));
            } else if m > 0 {
                steps.push(Step::Move(rng.below(m) as u16));
            }
        }
        let walk = self.walk(rng, board, 0);
        let tug = rng.pick(&[walk.tug, walk.tug, 0, 199, 200, 255]);
        let (start, goal) = (rng.below(s) as u16, rng.below(s) as u16);
        let (tick, arrival) = (rng.below(self.site.h + 1) as u16, rng.below(self.site.h + 1) as u16);
        Light { edition: rng.draw() as u32, tug, start, tick, goal, arrival, steps, ..walk }
    }

    /// A step number: mostly that of a step, else just past the last or far past it, or right in its low byte only.
    fn step(rng: &mut Rng, steps: usize) -> u16 {
        let good = rng.below(steps.max(1));
        let n = match rng.below(12) {
            0 => steps,
            1 => rng.pick(&[steps + 1, 65_535, good + 256, good + 65_280, good * 256]),
            2 => 0,
            3 => steps.saturating_sub(1),
            _ => good,
        };
        n.min(65_535) as u16
    }

    /// A frame: mostly one that there is.
    fn frame(rng: &mut Rng, bad: usize) -> u8 {
        if rng.percent(4 + bad) {
            return rng.pick(&[17, 17, 18, 32, 128, 255, 241]);
        }
        let any = rng.below(LAST_FRAME as usize + 1) as u8;
        rng.pick(&[any, any, any, any, any, any, 0, LAST_FRAME])
    }

    /// A draw. Lights are those that others are posted with, or their motions don't join.
    pub fn draw(&self, rng: &mut Rng, board: &[u8]) -> Call {
        let bad = badness(rng);
        let light = if rng.percent(40) { self.loose(rng, board).encode() } else { self.light(rng, board, bad) };
        let steps = Light::read(&light).map_or(3, |light| light.steps.len());
        Call::Draw { light, step: Self::step(rng, steps), frame: Self::frame(rng, bad) }
    }

    /// A call of a list: those of 'Lists of calls' of docs/FORMATS.md, and intervals, which change nothing.
    pub fn listed(&self, rng: &mut Rng, board: &[u8]) -> Call {
        let bad = badness(rng);
        match rng.below(100) {
            0..=33 => self.route(rng, board, bad),
            34..=43 => Call::Audit { light: self.light(rng, board, bad) },
            44..=70 => Call::Post { light: self.light(rng, board, bad) },
            71..=85 => self.close(rng, board, bad),
            86..=95 => self.withdraw(rng, board, bad),
            _ => self.interval(rng, bad),
        }
    }

    /// Any call but a draw, which needs no board.
    pub fn any(&self, rng: &mut Rng, board: &[u8]) -> Call {
        let bad = badness(rng);
        match rng.below(18) {
            0 => Call::Open,
            1 | 2 => self.interval(rng, bad),
            3..=6 => self.route(rng, board, bad),
            7 | 8 => Call::Audit { light: self.light(rng, board, bad) },
            9..=11 => Call::Post { light: self.light(rng, board, bad) },
            12..=15 => self.close(rng, board, bad),
            _ => self.withdraw(rng, board, bad),
        }
    }
}

/// A script for the day program: fields of every kind, some cut or changed.
pub fn script(rng: &mut Rng, site: &Site) -> Vec<u8> {
    let mut bytes = Vec::new();
    let (s, ticks) = (site.states.len(), site.h + 1);
    let standing: Vec<usize> = (0..s).filter(|&state| site.standing(state)).collect();
    let tugs = rng.range(1, 6);
    let n = rng.pick(&[0, 1, 2, 3, 5, 10, 20, 40]);
    for _ in 0..n {
        match rng.below(100) {
            0..=24 => {
                let first = near(rng, ticks, 4);
                let last = (first as usize + rng.below(1 + ticks / 4)).min(site.h).max(first as usize) as u16;
                let mut value = vec![rng.range(199, 206) as u8];
                value.extend([any_cell(rng, site, 4), first, last].map(u16::to_be_bytes).concat());
                if rng.percent(1) {
                    // As it was when a cell had one byte.
                    value.remove(1);
                }
                put(&mut bytes, 32, &value);
            }
            25..=39 => put(&mut bytes, 33, &[if rng.percent(50) { rng.range(0, tugs) } else { rng.range(199, 206) } as u8]),
            40..=69 => {
                let goal = if rng.percent(80) && !standing.is_empty() { rng.pick(&standing) as u16 } else { near(rng, s, 4) };
                let start = near(rng, s, 4).to_be_bytes();
                let tick = near(rng, ticks, 4);
                let dwell = dwell(rng, site.h.saturating_sub(tick as usize) / 2, 4).to_be_bytes();
                let (tick, goal) = (tick.to_be_bytes(), goal.to_be_bytes());
                let mut value = vec![rng.range(1, tugs) as u8];
                value.extend([start, tick, goal, dwell].concat());
                if rng.percent(1) {
                    // Without the dwell, as it was before.
                    value.truncate(7);
                }
                put(&mut bytes, 34, &value);
            }
            70..=98 => put(&mut bytes, 35, &[]),
            _ => put(&mut bytes, rng.pick(&[0, 31, 36, 32, 33, 34, 35]), &[1, 2]),
        }
    }
    match rng.below(12) {
        0 => {
            let n = rng.below(bytes.len() + 1);
            bytes.truncate(n);
        }
        1 => {
            let n = rng.range(1, 3);
            let more = rng.bytes(n);
            bytes.extend(more);
        }
        2 => scratch(rng, &mut bytes),
        _ => {}
    }
    bytes
}
