//! A simple desk in Rust in place of the archive, only with the feature `standin`: it is there to try the tests.
//! With a fault named in the environment variable DESK_FAULT it is wrong in one way, and the tests must notice.

use crate::desk::{Answer, Drawn, OFF_FLOOR, ROLLING, STANDING};
use crate::literal::{fields, number, put, with_head, Centre, Light, Motion, Site, State, Step, Sweep};
use crate::literal::{CENTRE_LEN, HEAD_LEN, LAST_FRAME, MARGIN_AT, MOTION_LEN, STATE_LEN, SWEEP_LEN};
use crate::literal::{MAX_CELLS, MAX_DWELL, MAX_MARGIN, MAX_MOTIONS, MAX_STATES, MAX_SWEEPS};
use std::borrow::Cow;
use std::sync::OnceLock;

/// The faults: those of the specification ("Wrong desks" of docs/PROMISES.md), then smaller ones, then refusals of a call in the wrong order, then those of
/// the day program with an empty script, then those of the time at the dock: the search, what is checked and held, number 10, layouts and areas, the
/// day program; then those of where a sweep uses its cell; then those of the travel times; then those of the margin: how far it reaches, whose bytes
/// count, who asks for it, close's rule, what is written, and the head; then those of halls above 255 cells: a cell's high byte lost, its bytes
/// exchanged, limits, older lengths, the day program; last those of pictures: the centres in a site file, what draw refuses and in which order, which
/// step and which cells it takes, the kind of picture, and its floats.
#[rustfmt::skip]
pub const FAULTS: [&str; 217] = [
    "earliest", "endpoints", "rolling", "swap", "no-plan", "empty-light", "first-step", "no-mark", "light-edition", "interval-end",
    "unmerged", "highest", "motion-first", "edition", "work-kept", "work-long", "tail", "refused-write", "low-byte", "unknown-free",
    "withdraw-edition", "interval-tail", "board-longer", "light-trailing", "stands-edition", "arrival",
    "site-1-2", "site-2-3", "site-5-6", "site-6-7", "interval-10-14",
    "route-9-10", "route-10-11", "route-11-12", "route-12-14", "close-9-10", "close-10-12", "close-12-15", "close-15-17",
    "withdraw-9-13", "withdraw-13-15", "light-9-10", "light-10-11", "light-11-12", "light-12-15", "light-15-16", "light-16-17",
    "quiet-silent", "quiet-refused", "quiet-cut", "quiet-always", "quiet-unreadable",
    "dwell-first-arrival", "dwell-ends-at-goal", "dwell-goal-unreached", "dwell-ignored-by-route",
    "dwell-short", "dwell-long", "dwell-past-horizon", "dwell-ignored-by-light", "dwell-unmarked", "dwell-marked-short",
    "dwell-1001", "dwell-1000", "dwell-unlimited-route", "dwell-unlimited-light", "dwell-limit-late", "dwell-horizon-10",
    "dwell-swapped", "dwell-lost", "dwell-old-head", "dwell-old-limit", "dwell-wide-limit", "dwell-old-area", "dwell-wide-area",
    "day-dwell-goal", "day-dwell-first", "day-dwell-swapped", "day-dwell-low-byte", "day-dwell-old-field",
    "sweep-one-start", "sweep-one-end", "sweep-hull",
    "travel-late", "travel-short", "travel-limit-16", "travel-limit-14", "travel-gain-2", "travel-no-stop", "travel-more",
    "travel-512", "travel-511", "travel-cut-16", "travel-18", "travel-beside-19", "travel-in-arrival",
    "margin-ignored", "margin-less", "margin-more", "margin-19", "margin-cut-16", "margin-after-only", "margin-before-only", "margin-ends",
    "margin-over-rows", "margin-past-horizon", "margin-before-zero", "margin-word", "margin-block",
    "margin-tugs-only", "margin-closures-free", "margin-unknown-free",
    "margin-off-start", "margin-off-sweep", "margin-off-dwell", "margin-off-interval", "margin-off-route", "margin-off-light",
    "margin-interval-empty",
    "close-margin-none", "close-margin-less", "close-margin-more", "close-margin-before-only", "close-margin-after-only", "close-margin-first",
    "close-margin-over-rows", "close-margin-closures", "close-margin-unknown", "close-margin-unheld", "close-margin-199", "close-margin-200",
    "margin-posted", "margin-closed",
    "margin-21", "margin-20", "margin-any", "margin-old-head", "margin-long-head", "margin-from-states", "margin-late", "margin-4",
    "hall-low-head", "hall-low-state", "hall-low-sweep", "hall-low-close", "hall-low-interval", "hall-low-free", "hall-low-mark", "hall-low-rules",
    "hall-swapped-head", "hall-swapped-state", "hall-swapped-sweep", "hall-swapped-close", "hall-swapped-interval",
    "hall-255-cells", "hall-999-cells", "hall-1001-cells", "hall-256-states", "hall-1279-states", "hall-1281-states",
    "hall-2000-motions", "hall-3999-motions", "hall-4001-motions",
    "hall-old-head", "hall-older-head", "hall-old-state", "hall-old-sweep", "hall-old-file",
    "day-low-close", "day-swapped-close", "day-old-close", "day-wide-area",
    "centres-refused", "centres-needed", "centres-one-less", "centres-one-more", "centres-any", "centres-low-byte", "centres-of-states",
    "centres-3-bytes", "centres-5-bytes", "centres-tag-5", "centres-any-order", "centres-as-motions", "centres-late",
    "draw-no-centres", "draw-17", "draw-15", "draw-10-20", "draw-20-8", "draw-frame-first", "draw-past-first", "draw-past-refused",
    "draw-9", "draw-11", "draw-chain",
    "draw-low-step", "draw-from-1", "draw-dwell", "draw-wait-start", "draw-wait-next", "draw-wait-from", "draw-exchanged", "draw-walked",
    "draw-low-cell", "draw-state-centres",
    "draw-end-stands", "draw-within-stands", "draw-rolling-wait",
    "draw-y-from-x", "draw-swapped-bytes", "draw-eighths", "draw-unsigned", "draw-rounded", "draw-minus-zero", "draw-share-of-wait", "draw-beside-20",
];

pub fn fault(name: &str) -> bool {
    static NAME: OnceLock<String> = OnceLock::new();
    let chosen = NAME.get_or_init(|| {
        let chosen = std::env::var("DESK_FAULT").unwrap_or_default();
        assert!(chosen.is_empty() || FAULTS.contains(&chosen.as_str()), "no such fault");
        chosen
    });
    chosen == name
}

/// The first number whose check applies.
fn first(call: &str, checks: &[(u8, &dyn Fn() -> bool)]) -> Result<(), u8> {
    let mut order: Vec<usize> = (0..checks.len()).collect();
    for i in 1..checks.len() {
        if fault(&format!("{call}-{}-{}", checks[i - 1].0, checks[i].0)) {
            order.swap(i - 1, i);
        }
    }
    match order.into_iter().find(|&i| checks[i].1()) {
        Some(i) => Err(checks[i].0),
        None => Ok(()),
    }
}

fn enter(file: &[u8], board: &[u8]) -> Result<Site, u8> {
    let site = read(file, Some(board))?;
    let fits = board.len() == site.board_len() || (fault("board-longer") && board.len() > site.board_len());
    if fits {
        Ok(site)
    } else {
        Err(7)
    }
}

/// Checks 1 to 6, for a call with a board or without.
fn read(file: &[u8], board: Option<&[u8]>) -> Result<Site, u8> {
    let file = &misread(file);
    let other_board = |len: usize| board.is_some_and(|board| board.len() != len);
    let mut site = match Site::read(file) {
        Err(1) if fault("site-1-2") && fields(file).is_none() => Err(2),
        Err(2) if fault("site-2-3") && !file.is_empty() && file[0] != 1 => Err(3),
        Err(5) if fault("site-5-6") => Err(Site::read(&cells_within(file)).err().unwrap_or(5)),
        Err(6) if fault("site-6-7") && other_board(4 + number(&file[5..7]) * (number(&file[3..5]) + 1)) => Err(7),
        Err(6) if fault("swap") => unhanded(file),
        Err(6) if fault("sweep-one-start") => widened(file, |sweep, _, _| sweep.a = 0),
        Err(6) if fault("sweep-one-end") => widened(file, |sweep, d, _| sweep.b = d),
        Err(6) if fault("sweep-hull") => widened(file, |sweep, _, all| {
            for other in all.iter().filter(|other| other.cell == sweep.cell) {
                sweep.a = sweep.a.min(other.a);
                sweep.b = sweep.b.max(other.b);
            }
        }),
        Err(6) if fault("hall-low-rules") => by_low_bytes(file),
        Err(3) => with_wrong_head(file).or_else(|number| with_wrong_limits(file, number)),
        Err(4) => with_wrong_limits(file, 4).or_else(|_| with_wrong_centres(file)),
        Ok(site) if site.margin == MAX_MARGIN && fault("margin-20") => Err(3),
        Ok(site) if fault("centres-refused") && !site.centres.is_empty() => Err(4),
        Ok(site) if fault("centres-needed") && site.centres.is_empty() => Err(4),
        Ok(site) if fault("centres-as-motions") && site.motions.len() + site.centres.len() > MAX_MOTIONS => Err(4),
        Ok(site) => within_lower_limits(site),
        other => other,
    }?;
    site.margin = match site.margin {
        _ if fault("margin-ignored") => 0,
        m if fault("margin-less") => m.saturating_sub(1),
        m if fault("margin-more") && m > 0 => m + 1,
        m if fault("margin-19") => m.min(19),
        m if fault("margin-cut-16") => m & 15,
        _ if fault("margin-from-states") => site.states.len().min(MAX_MARGIN),
        m => m,
    };
    Ok(site)
}

/// A file that is refused with 4, as desks have it that are wrong about centres.
fn with_wrong_centres(file: &[u8]) -> Result<Site, u8> {
    let (c, s) = (number(&file[5..7]), number(&file[7..9]));
    let mut all: Vec<(u8, Vec<u8>)> = fields(file).unwrap().into_iter().map(|(tag, value)| (tag, value.to_vec())).collect();
    for (tag, value) in &mut all {
        if *tag == 5 && fault("centres-tag-5") {
            *tag = 4;
        }
        let cut = [("centres-3-bytes", CENTRE_LEN - 1), ("centres-5-bytes", CENTRE_LEN + 1)].iter().any(|cut| fault(cut.0) && value.len() == cut.1);
        if *tag == 4 && cut {
            value.resize(CENTRE_LEN, 0);
        }
    }
    if fault("centres-any-order") && all.len() > s {
        all[1 + s..].sort_by_key(|field| field.0);
    }
    if fault("centres-late") {
        all.retain(|field| field.0 != 4);
        return Site::read(&joined(&all)).and(Err(4));
    }
    let count = all.iter().rev().take_while(|field| field.0 == 4).count();
    let taken = fault("centres-any")
        || (fault("centres-one-less") && count + 1 == c)
        || (fault("centres-one-more") && count == c + 1)
        || (fault("centres-low-byte") && count == c % 256)
        || (fault("centres-of-states") && count == s);
    if taken && count > 0 {
        let last = all[all.len() - 1].clone();
        all.resize(all.len() - count + c, last);
    }
    Site::read(&joined(&all)).or(Err(4))
}

fn joined(all: &[(u8, Vec<u8>)]) -> Vec<u8> {
    let mut bytes = Vec::new();
    all.iter().for_each(|(tag, value)| put(&mut bytes, *tag, value));
    bytes
}

/// Changes the values of a file's fields, if their lengths are right.
fn changed(file: &[u8], change: impl Fn(u8, &mut Vec<u8>)) -> Vec<u8> {
    let Some(all) = fields(file) else { return file.to_vec() };
    let mut bytes = Vec::new();
    for (tag, value) in all {
        let mut value = value.to_vec();
        change(tag, &mut value);
        put(&mut bytes, tag, &value);
    }
    bytes
}

/// Changes C, the cells of states or those of sweeps, each in its two bytes.
fn change_cells(tag: u8, value: &mut [u8], part: &str, change: impl Fn(&mut [u8])) {
    match (tag, part) {
        (1, "head") if value.len() == HEAD_LEN => change(&mut value[2..4]),
        (2, "state") if value.len() == STATE_LEN => change(&mut value[..2]),
        (3, "sweep") if value.len() > MOTION_LEN => value[MOTION_LEN..].chunks_exact_mut(SWEEP_LEN).for_each(|sweep| change(&mut sweep[..2])),
        _ => {}
    }
}

/// The file as a desk reads it that loses the high byte of its cells, or exchanges their bytes.
fn misread(file: &[u8]) -> Cow<'_, [u8]> {
    for part in ["head", "state", "sweep"] {
        if fault(&format!("hall-low-{part}")) {
            return changed(file, |tag, value| change_cells(tag, value, part, |cell| cell[0] = 0)).into();
        }
        if fault(&format!("hall-swapped-{part}")) {
            return changed(file, |tag, value| change_cells(tag, value, part, |cell| cell.swap(0, 1))).into();
        }
    }
    file.into()
}

/// Checks motions as if cells were the same that have the same low byte.
fn by_low_bytes(file: &[u8]) -> Result<Site, u8> {
    let c = number(&file[5..7]);
    let cut = |cell: &mut [u8]| cell[0] = if number(cell) < c { 0 } else { cell[0] };
    let cut_file = |file: &[u8], part: &str| changed(file, |tag, value| change_cells(tag, value, part, cut));
    let site = Site::read(&cut_file(&cut_file(file, "sweep"), "state"))?;
    let cells = |tag: u8| fields(file).unwrap().into_iter().filter(move |field| field.0 == tag).map(|field| field.1);
    let states = site.states.iter().zip(cells(2)).map(|(state, value)| State { cell: number(&value[..2]) as u16, ..*state }).collect();
    let sweeps = cells(3).map(|value| value[MOTION_LEN..].chunks_exact(SWEEP_LEN).map(Sweep::read).collect());
    let motions = site.motions.iter().zip(sweeps).map(|(motion, sweeps)| Motion { sweeps, ..motion.clone() }).collect();
    Ok(Site { states, motions, ..site })
}

/// An accepted site, if it keeps limits that are too low.
fn within_lower_limits(site: Site) -> Result<Site, u8> {
    let above = |limits: &[usize], what: &str, n: usize| limits.iter().any(|&limit| n > limit && fault(&format!("hall-{limit}-{what}")));
    if above(&[255, 999], "cells", site.c) || above(&[256, 1_279], "states", site.states.len()) {
        return Err(3);
    }
    if above(&[2_000, 3_999], "motions", site.motions.len()) {
        return Err(4);
    }
    Ok(site)
}

/// A file that is refused with 3 or 4, as desks have it whose limits are too high, or that take older lengths.
fn with_wrong_limits(file: &[u8], refused: u8) -> Result<Site, u8> {
    let older = [("hall-old-head", 6), ("hall-older-head", 5), ("hall-old-state", 0), ("hall-old-sweep", 0), ("hall-old-file", 6)];
    if let Some((name, head)) = older.into_iter().find(|older| fault(older.0)) {
        return Site::read(&changed(file, |tag, value| widen(tag, value, name, head))).or(Err(refused));
    }
    let all = fields(file).unwrap();
    let count = |tag: u8| all.iter().filter(|field| field.0 == tag).count();
    if fault("hall-1001-cells") && file.starts_with(&[1, 0, HEAD_LEN as u8]) && number(&file[5..7]) == MAX_CELLS + 1 {
        let read = Site::read(&changed(file, |tag, value| change_cells(tag, value, "head", |c| c.copy_from_slice(&(MAX_CELLS as u16).to_be_bytes()))));
        return read.map(|site| Site { c: MAX_CELLS + 1, ..site });
    }
    if fault("hall-1281-states") && count(2) == MAX_STATES + 1 {
        let mut site = Site::read(&without_last(file, 2, MAX_STATES))?;
        site.states.push(site.states[0]);
        return Ok(site);
    }
    if fault("hall-4001-motions") && count(3) == MAX_MOTIONS + 1 {
        let mut site = Site::read(&without_last(file, 3, MAX_MOTIONS))?;
        site.motions.push(site.motions[0].clone());
        return Ok(site);
    }
    Err(refused)
}

/// The file without the field behind so many of a tag; a head has as many states as are left.
fn without_last(file: &[u8], left_out: u8, left: usize) -> Vec<u8> {
    let mut bytes = Vec::new();
    let mut seen = 0;
    for (tag, value) in fields(file).unwrap() {
        seen += usize::from(tag == left_out);
        let mut value = value.to_vec();
        if tag == 1 && left_out == 2 && value.len() == HEAD_LEN {
            value[4..6].copy_from_slice(&(left as u16).to_be_bytes());
        }
        if tag != left_out || seen <= left {
            put(&mut bytes, tag, &value);
        }
    }
    bytes
}

/// Gives a field of an older length, where cells have one byte, the length that it has now.
fn widen(tag: u8, value: &mut Vec<u8>, name: &str, head: usize) {
    let whole = name == "hall-old-file";
    match tag {
        1 if value.len() == head => {
            value.insert(2, 0);
            value.resize(HEAD_LEN, 0);
        }
        2 if value.len() == STATE_LEN - 1 && (whole || name == "hall-old-state") => value.insert(0, 0),
        3 if (value.len() + 1) % 3 == 0 && (whole || name == "hall-old-sweep") => {
            let sweeps: Vec<u8> = value[MOTION_LEN..].chunks(SWEEP_LEN - 1).flat_map(|sweep| [&[0], sweep].concat()).collect();
            value.truncate(MOTION_LEN);
            value.extend(sweeps);
        }
        _ => {}
    }
}

/// A cell that a call names, as it is read.
fn named(cell: u16, call: &str) -> usize {
    let cell = match cell {
        cell if fault("low-byte") || fault(&format!("hall-low-{call}")) => cell & 255,
        cell if fault(&format!("hall-swapped-{call}")) => cell.swap_bytes(),
        cell => cell,
    };
    cell as usize
}

/// A file that is refused with 3, as the faults of the head have it.
fn with_wrong_head(file: &[u8]) -> Result<Site, u8> {
    // One without the margin, and one with a byte more.
    let old_head = fault("margin-old-head") && file.starts_with(&[1, 0, HEAD_LEN as u8 - 1]);
    if old_head || (fault("margin-long-head") && file.starts_with(&[1, 0, HEAD_LEN as u8 + 1])) {
        return Site::read(&with_head(file, HEAD_LEN).unwrap());
    }
    if !file.starts_with(&[1, 0, HEAD_LEN as u8]) || file[MARGIN_AT] as usize <= MAX_MARGIN {
        return Err(3);
    }
    let mut mended = file.to_vec();
    mended[MARGIN_AT] = 0;
    let read = Site::read(&mended);
    match file[MARGIN_AT] {
        21 if fault("margin-21") => read.map(|site| Site { margin: 21, ..site }),
        m if fault("margin-any") => read.map(|site| Site { margin: m as usize, ..site }),
        _ if fault("margin-late") => read.and(Err(3)),
        _ if fault("margin-4") => Err(4),
        _ => Err(3),
    }
}

/// The file with every state in cell 0, so that only its motions can be wrong.
fn cells_within(file: &[u8]) -> Vec<u8> {
    changed(file, |tag, value| change_cells(tag, value, "state", |cell| cell.fill(0)))
}

/// Accepts motions without handover: each is read with one more sweep, which hands over at every offset.
fn unhanded(file: &[u8]) -> Result<Site, u8> {
    let cell = number(&fields(file).unwrap()[1].1[..2]) as u16;
    let mut site = Site::read(&changed(file, |tag, value| {
        if tag == 3 && value.len() < MOTION_LEN + MAX_SWEEPS * SWEEP_LEN {
            value.extend(Sweep { cell, a: 0, b: value[4] }.encode());
        }
    }))?;
    for motion in &mut site.motions {
        motion.sweeps.pop();
    }
    Ok(site)
}

/// Checks motions as if each sweep used its cell at more offsets. `widen` gets a sweep, the span and all sweeps as they were.
fn widened(file: &[u8], widen: impl Fn(&mut Sweep, u8, &[Sweep])) -> Result<Site, u8> {
    let mut bytes = Vec::new();
    let mut written = Vec::new();
    for (tag, value) in fields(file).unwrap() {
        let mut value = value.to_vec();
        if tag == 3 {
            let (d, sweeps): (u8, Vec<Sweep>) = (value[4], value[MOTION_LEN..].chunks_exact(SWEEP_LEN).map(Sweep::read).collect());
            value.truncate(MOTION_LEN);
            for mut sweep in sweeps.iter().copied() {
                widen(&mut sweep, d, &sweeps);
                value.extend(sweep.encode());
            }
            written.push(sweeps);
        }
        put(&mut bytes, tag, &value);
    }
    let mut site = Site::read(&bytes)?;
    for (motion, sweeps) in site.motions.iter_mut().zip(written) {
        motion.sweeps = sweeps;
    }
    Ok(site)
}

/// Whether a pair has no holder.
fn unheld(site: &Site, board: &[u8], cell: usize, tick: usize) -> bool {
    let byte = board[4 + cell * (site.h + 1) + tick];
    byte == 0 || (byte == 255 && fault("unknown-free"))
}

/// Whether a pair is free for a tug.
fn free(site: &Site, board: &[u8], cell: usize, tick: usize) -> bool {
    let cell = if fault("hall-low-free") { cell & 255 } else { cell };
    if site.margin == 0 {
        return unheld(site, board, cell, tick);
    }
    // Most pairs have nothing around them, and only these faults see something where there is nothing.
    let around = &board[4 + cell * (site.h + 1)..][site.around(tick)];
    let outside = fault("margin-over-rows") || fault("margin-past-horizon") || fault("margin-before-zero");
    (around.iter().all(|&byte| byte == 0) && !outside) || (unheld(site, board, cell, tick) && !crowded(site, board, cell, tick))
}

/// The byte of a cell at a tick that may lie before 0 or past H, where there is none.
fn byte_near(site: &Site, board: &[u8], cell: usize, tick: isize) -> u8 {
    let at = 4 + (cell * (site.h + 1)) as isize + tick;
    match tick {
        _ if (0..=site.h as isize).contains(&tick) => board[at as usize],
        _ if fault("margin-over-rows") && at >= 4 => board.get(at as usize).copied().unwrap_or(0),
        _ if fault("margin-past-horizon") && tick > 0 => 200,
        _ if fault("margin-before-zero") && tick < 0 => 200,
        _ => 0,
    }
}

/// Whether a byte within the margin keeps tugs from a pair.
fn crowded(site: &Site, board: &[u8], cell: usize, tick: usize) -> bool {
    let (margin, tick) = (site.margin as isize, tick as isize);
    let before = if fault("margin-after-only") { 0 } else { margin };
    let after = if fault("margin-before-only") { 0 } else { margin };
    let keeps_away = |byte: u8| match byte {
        0 => false,
        200..=254 if fault("margin-closures-free") => false,
        255 if fault("margin-unknown-free") || fault("unknown-free") => false,
        200..=255 if fault("margin-tugs-only") => false,
        _ => true,
    };
    let looked_at = |at: isize| {
        !(fault("margin-ends") && at.abs_diff(tick) != site.margin)
            && !(fault("margin-word") && at.div_euclid(64) != tick / 64)
            && !(fault("margin-block") && at.div_euclid(256) != tick / 256)
    };
    (tick - before..=tick + after).any(|at| keeps_away(byte_near(site, board, cell, at)) && looked_at(at))
}

fn stands(board: &[u8], holder: u8) -> bool {
    if fault("stands-edition") {
        return board.contains(&holder);
    }
    board[4..].contains(&holder)
}

fn edition(board: &[u8]) -> u32 {
    u32::from_be_bytes(board[..4].try_into().unwrap())
}

fn advance(board: &mut [u8], by: u32) {
    let next = edition(board).wrapping_add(by);
    board[..4].copy_from_slice(&next.to_be_bytes());
}

fn done(result: Result<(), u8>) -> Answer {
    Answer::plain(result.err().unwrap_or(0))
}

pub fn open(file: &[u8], board: &mut [u8]) -> Answer {
    done(enter(file, board).map(|_| board.fill(0)))
}

pub fn interval(file: &[u8], board: &[u8], cell: u16, out: &mut [u16]) -> Answer {
    let mut site = match enter(file, board) {
        Ok(site) => site,
        Err(number) => return Answer::plain(number),
    };
    if fault("margin-off-interval") {
        site.margin = 0;
    }
    let cell = named(cell, "interval");
    if let Err(number) = first("interval", &[(10, &|| cell >= site.c), (14, &|| out.len() < site.h + 2)]) {
        return Answer::plain(number);
    }
    let mut all = site.intervals(&|cell, tick| free(&site, board, cell, tick), cell);
    if fault("interval-end") && all.last().is_some_and(|last| last.0 as usize == site.h) {
        all.pop();
    }
    if fault("margin-interval-empty") {
        // A run of unheld ticks of which the margin leaves nothing is written with its first tick.
        let unheld = site.intervals(&|cell, tick| unheld(&site, board, cell, tick), cell);
        let bare: Vec<(u16, u16)> = unheld.into_iter().filter(|run| !all.iter().any(|left| run.0 <= left.0 && left.1 <= run.1)).collect();
        all.extend(bare.iter().map(|run| (run.0, run.0)));
        all.sort_unstable();
    }
    for (i, &(first, last)) in all.iter().enumerate() {
        out[2 * i] = first;
        out[2 * i + 1] = last;
    }
    if fault("interval-tail") {
        out[2 * all.len()..site.h + 2].fill(0);
    }
    Answer { number: 0, value: all.len() as u32, arrival: 0 }
}

/// Whether a state's speed is not 0; states out of range have none.
fn rolling(site: &Site, state: u16) -> bool {
    site.states.get(state as usize).is_some_and(|state| state.speed != 0)
}

fn motion_free(site: &Site, board: &[u8], k: usize, tick: usize) -> bool {
    let motion = &site.motions[k];
    let free = if fault("margin-off-sweep") { unheld } else { free };
    tick + motion.d as usize <= site.h
        && motion.sweeps.iter().all(|w| {
            let (first, last) = (tick + w.a as usize, tick + w.b as usize);
            if fault("endpoints") {
                return free(site, board, w.cell as usize, first) && free(site, board, w.cell as usize, last);
            }
            (first..=last).all(|at| free(site, board, w.cell as usize, at))
        })
}

fn may_wait(site: &Site, state: usize) -> bool {
    site.standing(state) || fault("rolling")
}

fn may_start(site: &Site, board: &[u8], state: usize, tick: usize) -> bool {
    let free = if fault("margin-off-start") { unheld } else { free };
    free(site, board, site.cell(state), tick)
}

/// Whether a dwell counts as too large.
fn dwell_large(site: &Site, goal: u16, dwell: u16) -> bool {
    let limit = MAX_DWELL + fault("dwell-1001") as u16 - fault("dwell-1000") as u16;
    // With the fault a rolling goal comes first.
    dwell > limit && !(fault("dwell-limit-late") && rolling(site, goal))
}

/// Whether the goal's cell is free from a tick for the whole dwell.
fn unloads(site: &Site, board: &[u8], goal: usize, tick: usize, dwell: usize) -> bool {
    let short = if fault("dwell-short") { 1 } else { 0 };
    let last = (tick + dwell + fault("dwell-long") as usize).saturating_sub(short).max(tick);
    let past = last > site.h && !fault("dwell-past-horizon");
    let free = if fault("margin-off-dwell") { unheld } else { free };
    !past && (tick..=last.min(site.h)).all(|at| free(site, board, site.cell(goal), at))
}

#[allow(clippy::too_many_arguments)]
pub fn route(file: &[u8], board: &[u8], tug: u8, start: u16, tick: u16, goal: u16, dwell: u16, out: &mut [u8], work: &mut [u32]) -> Answer {
    let result = enter(file, board).and_then(|site| {
        let s = site.states.len();
        let large = dwell_large(&site, goal, dwell) && !fault("dwell-unlimited-route");
        let past = fault("dwell-horizon-10") && dwell as usize > site.h;
        let needed = match site.output_len() {
            len if fault("dwell-old-area") => len - 2,
            // Right up to H 12 only.
            len if fault("dwell-wide-area") => len + site.h / 13 * site.h,
            len => len,
        };
        let checks: [(u8, &dyn Fn() -> bool); 5] = [
            (9, &|| tug == 0 || tug > 199),
            (10, &|| start as usize >= s || goal as usize >= s || tick as usize > site.h || large || past),
            (11, &|| rolling(&site, goal)),
            (12, &|| stands(board, tug)),
            (14, &|| out.len() < needed || work.len() < s * (site.h + 1)),
        ];
        first("route", &checks)?;
        Ok(site)
    });
    let mut site = match result {
        Ok(site) => site,
        Err(number) => {
            if fault("refused-write") && number == 11 && !out.is_empty() {
                out[0] = out[0].wrapping_add(1);
            }
            return Answer::plain(number);
        }
    };
    if fault("margin-off-route") {
        site.margin = 0;
    }
    let words = site.states.len() * (site.h + 1);
    let words = if fault("work-long") { work.len() } else { words };
    let dock = if fault("dwell-ignored-by-route") { 0 } else { dwell as usize };
    let found = if fault("no-plan") { None } else { search(&site, board, start as usize, tick as usize, goal as usize, dock) };
    let Some((steps, arrival)) = found else {
        if !fault("work-kept") {
            work[..words].fill(0);
        }
        return Answer::plain(18);
    };
    work[..words].fill(0);
    let edition = edition(board).wrapping_add(fault("light-edition") as u32);
    let steps = if fault("empty-light") { Vec::new() } else { steps };
    let dwell = if fault("dwell-lost") { 0 } else { dwell };
    let light = lit(Light { edition, tug, start, tick, goal, arrival: arrival as u16, dwell, steps }).encode();
    out[..light.len()].copy_from_slice(&light);
    if fault("tail") {
        out[light.len()..].fill(0);
    }
    Answer { number: 0, value: light.len() as u32, arrival: arrival as u32 + fault("arrival") as u32 }
}

/// A light as it is written, or read again.
fn lit(mut light: Light) -> Light {
    if fault("dwell-swapped") {
        light.dwell = light.dwell.swap_bytes();
    }
    light
}

/// Forward from each reached pair, then back by the traced rule.
fn search(site: &Site, board: &[u8], start: usize, tick: usize, goal: usize, dwell: usize) -> Option<(Vec<Step>, usize)> {
    let unloads = |at: usize| unloads(site, board, goal, at, dwell);
    let is_free = |state: usize, at: usize| free(site, board, site.cell(state), at);
    let mut reached = vec![vec![false; site.states.len()]; site.h + 1];
    if !may_start(site, board, start, tick) {
        return None;
    }
    reached[tick][start] = true;
    let (mut from, mut to) = (vec![vec![]; site.states.len()], vec![vec![]; site.states.len()]);
    for (k, motion) in site.motions.iter().enumerate() {
        from[motion.from as usize].push(k);
        to[motion.to as usize].push(k);
    }
    if fault("highest") {
        to.iter_mut().for_each(|motions| motions.reverse());
    }
    for t in tick..=site.h {
        if fault("earliest") {
            // One arrival for each state and safe interval.
            for s in 0..site.states.len() {
                let earlier = (tick..t).rev().take_while(|&u| is_free(s, u)).any(|u| reached[u][s]);
                if reached[t][s] && earlier && !may_wait(site, s) {
                    reached[t][s] = false;
                }
            }
        }
        if reached[t][goal] && (unloads(t) || fault("dwell-first-arrival")) {
            break;
        }
        if fault("dwell-goal-unreached") && (goal, t) != (start, tick) {
            reached[t][goal] = false;
        }
        let goal_ends = |s: usize| s == goal && fault("dwell-ends-at-goal");
        for s in (0..site.states.len()).filter(|&s| reached[t][s] && !goal_ends(s)).collect::<Vec<_>>() {
            if may_wait(site, s) && t < site.h && is_free(s, t + 1) {
                reached[t + 1][s] = true;
            }
            for &k in from[s].iter().filter(|&&k| motion_free(site, board, k, t)) {
                reached[t + site.motions[k].d as usize][site.motions[k].to as usize] = true;
            }
        }
    }
    let arrival = (tick..=site.h).find(|&t| reached[t][goal] && (unloads(t) || fault("dwell-first-arrival")))?;
    if !unloads(arrival) {
        return None;
    }
    let mut steps = Vec::new();
    let (mut s, mut t) = (goal, arrival);
    while (s, t) != (start, tick) {
        let waits = t > tick && may_wait(site, s) && reached[t - 1][s] && is_free(s, t);
        let moves = to[s].iter().copied().find(|&k| {
            let (from, d) = (site.motions[k].from as usize, site.motions[k].d as usize);
            d <= t - tick && reached[t - d][from] && motion_free(site, board, k, t - d)
        });
        match moves {
            Some(k) if !waits || fault("motion-first") => {
                steps.push(Step::Move(k as u16));
                t -= site.motions[k].d as usize;
                s = site.motions[k].from as usize;
            }
            _ => {
                t -= 1;
                match steps.last_mut() {
                    Some(Step::Wait(n)) if !fault("unmerged") => *n += 1,
                    _ => steps.push(Step::Wait(1)),
                }
            }
        }
    }
    steps.reverse();
    Some((steps, arrival))
}

fn check(file: &[u8], board: &[u8], bytes: &[u8]) -> Result<(Site, Light, Vec<(usize, usize)>), u8> {
    let mut site = enter(file, board)?;
    if fault("margin-off-light") {
        site.margin = 0;
    }
    let light = read_light(bytes).ok_or(8)?;
    let large = dwell_large(&site, light.goal, light.dwell) && !fault("dwell-unlimited-light");
    let unknown = Light { dwell: 0, ..light.clone() }.too_large(&site);
    let past = fault("dwell-horizon-10") && light.arrival as usize + light.dwell as usize > site.h;
    let pairs = if unknown { None } else { held(&site, board, &light) };
    let checks: [(u8, &dyn Fn() -> bool); 7] = [
        (9, &|| light.tug == 0 || light.tug > 199),
        (10, &|| unknown || large || past),
        (11, &|| rolling(&site, light.goal)),
        (12, &|| stands(board, light.tug)),
        (15, &|| edition(board) == u32::MAX),
        (16, &|| light.edition != edition(board)),
        (17, &|| pairs.is_none()),
    ];
    first("light", &checks)?;
    let pairs = pairs.unwrap();
    Ok((site, light, pairs))
}

/// The light of some bytes.
fn read_light(bytes: &[u8]) -> Option<Light> {
    let mut read = Light::read(bytes);
    if fault("light-trailing") && read.is_none() {
        read = (1..5).filter(|n| *n < bytes.len()).find_map(|n| Light::read(&bytes[..bytes.len() - n]));
    }
    if fault("dwell-old-head") && bytes.starts_with(&[16, 0, 13]) {
        read = with_head(bytes, 15).and_then(|bytes| Light::read(&bytes));
    }
    if fault("dwell-old-limit") && bytes.len() > 5_016 {
        read = None;
    }
    if fault("dwell-wide-limit") && bytes.len() == 5_023 {
        read = Light::read(&bytes[..5_018]);
    }
    read.map(lit)
}

/// The pairs of a valid plan, the start's first.
fn held(site: &Site, board: &[u8], light: &Light) -> Option<Vec<(usize, usize)>> {
    let (mut s, mut t) = (light.start as usize, light.tick as usize);
    if !may_start(site, board, s, t) {
        return None;
    }
    let mut pairs = vec![(site.cell(s), t)];
    let mut first = true;
    for step in &light.steps {
        let mut more: Vec<(usize, usize)> = Vec::new();
        match *step {
            Step::Wait(n) => {
                let end = t + n as usize;
                if !may_wait(site, s) || end > site.h || (t..=end).any(|at| !free(site, board, site.cell(s), at)) {
                    return None;
                }
                more.extend((t..=end).map(|at| (site.cell(s), at)));
                t = end;
            }
            Step::Move(k) => {
                let motion = &site.motions[k as usize];
                if motion.from as usize != s || !motion_free(site, board, k as usize, t) {
                    return None;
                }
                more = site.swept(k as usize, t);
                t += motion.d as usize;
                s = motion.to as usize;
            }
        }
        if !fault("first-step") || first {
            pairs.extend(more);
        }
        first = false;
    }
    let dwell = light.dwell as usize;
    if !fault("dwell-ignored-by-light") && !unloads(site, board, s, t, dwell) {
        return None;
    }
    let last = if fault("dwell-marked-short") { (t + dwell).saturating_sub(1) } else { t + dwell };
    if !fault("dwell-unmarked") && !fault("first-step") {
        pairs.extend((t..=last.min(site.h)).map(|at| (site.cell(s), at)));
    }
    (s == light.goal as usize && t == light.arrival as usize).then_some(pairs)
}

pub fn audit(file: &[u8], board: &[u8], light: &[u8]) -> Answer {
    done(check(file, board, light).map(|_| ()))
}

pub fn post(file: &[u8], board: &mut [u8], light: &[u8]) -> Answer {
    done(check(file, board, light).map(|(site, light, pairs)| {
        if !fault("no-mark") {
            let around = |tick| if fault("margin-posted") { site.around(tick) } else { tick..=tick };
            for (cell, tick) in pairs.into_iter().flat_map(|(cell, tick)| around(tick).map(move |at| (cell, at))) {
                let cell = if fault("hall-low-mark") { cell & 255 } else { cell };
                board[4 + cell * (site.h + 1) + tick] = light.tug;
            }
        }
        advance(board, 1 + fault("edition") as u32);
    }))
}

/// Whether a closure can't have a run of ticks of a cell.
fn kept_open(site: &Site, board: &[u8], cell: usize, begin: usize, end: usize) -> bool {
    let is_tug = |byte: u8| (1..=199).contains(&byte);
    let margin = match site.margin {
        _ if fault("close-margin-none") => 0,
        m if fault("close-margin-less") => m.saturating_sub(1),
        m if fault("close-margin-more") && m > 0 => m + 1,
        m => m,
    };
    let before = if fault("close-margin-after-only") { 0 } else { margin };
    let after = if fault("close-margin-before-only") { 0 } else { margin };
    let row = 4 + cell * (site.h + 1);
    let (low, high) = if fault("close-margin-over-rows") { (4, board.len() - 1) } else { (row, row + site.h) };
    let first = (row + begin).saturating_sub(before).max(low);
    let last = (row + if fault("close-margin-first") { begin } else { end } + after).min(high);
    let keeps_open = |byte: u8| match byte {
        199 if fault("close-margin-199") => false,
        200 if fault("close-margin-200") => true,
        200..=254 => fault("close-margin-closures"),
        255 => fault("close-margin-unknown"),
        byte => is_tug(byte),
    };
    let held = |tick: usize| if fault("close-margin-unheld") { is_tug(board[row + tick]) } else { !unheld(site, board, cell, tick) };
    (begin..=end).any(held) || board[first..=last].iter().any(|&byte| keeps_open(byte))
}

pub fn close(file: &[u8], board: &mut [u8], holder: u8, cell: u16, first_tick: u16, last: u16) -> Answer {
    let cell = named(cell, "close");
    let (begin, end) = (first_tick as usize, last as usize);
    let result = enter(file, board).and_then(|site| {
        let large = cell >= site.c || begin > site.h || end > site.h || begin > end;
        let checks: [(u8, &dyn Fn() -> bool); 5] = [
            (9, &|| !(200..=254).contains(&holder)),
            (10, &|| large),
            (12, &|| stands(board, holder)),
            (15, &|| edition(board) == u32::MAX),
            (17, &|| !large && kept_open(&site, board, cell, begin, end)),
        ];
        first("close", &checks)?;
        Ok(site)
    });
    done(result.map(|site| {
        let (begin, end) = if fault("margin-closed") { (*site.around(begin).start(), *site.around(end).end()) } else { (begin, end) };
        board[4 + cell * (site.h + 1)..][begin..=end].fill(holder);
        advance(board, 1);
    }))
}

pub fn withdraw(file: &[u8], board: &mut [u8], holder: u8) -> Answer {
    let result = enter(file, board).and_then(|_| {
        let checks: [(u8, &dyn Fn() -> bool); 3] =
            [(9, &|| holder == 0 || holder == 255), (13, &|| !stands(board, holder)), (15, &|| edition(board) == u32::MAX)];
        first("withdraw", &checks)
    });
    done(result.map(|_| {
        for byte in board[4..].iter_mut().filter(|byte| **byte == holder) {
            *byte = 0;
        }
        if !fault("withdraw-edition") {
            advance(board, 1);
        }
    }))
}

/// The distance of the fastest run of n ticks, which gains and then loses speed as long as it can.
fn fastest(n: u32) -> u32 {
    let limit = if fault("travel-limit-16") { 16 } else { 15 - fault("travel-limit-14") as u32 };
    let gain = if fault("travel-gain-2") { 2 } else { 1 };
    let stop = |t: u32| if fault("travel-no-stop") { limit } else { gain * (n - t) };
    (0..=n).map(|t| limit.min(gain * t).min(stop(t))).sum()
}

pub fn travel(distance: u32) -> Answer {
    let distance = if fault("travel-cut-16") { distance & 0xffff } else { distance };
    let last = 511 + fault("travel-512") as u32 - fault("travel-511") as u32;
    if distance > last {
        return Answer { number: if fault("travel-18") { 18 } else { 19 }, value: if fault("travel-beside-19") { 50 } else { 0 }, arrival: 0 };
    }
    let wanted = distance + fault("travel-more") as u32;
    let mut ticks = (0..).find(|&n| fastest(n) >= wanted).unwrap();
    match distance {
        300 if fault("travel-late") => ticks += 1,
        511 if fault("travel-short") => ticks -= 1,
        _ => {}
    }
    Answer { number: 0, value: ticks, arrival: if fault("travel-in-arrival") { ticks } else { 0 } }
}

pub fn draw(file: &[u8], bytes: &[u8], step: u16, frame: u8) -> Drawn {
    pictured(file, bytes, step, frame).unwrap_or_else(|number| {
        let share = if number == 20 && fault("draw-beside-20") { frame as f32 / 16.0 } else { 0.0 };
        Drawn { share, ..Drawn::plain(number, OFF_FLOOR) }
    })
}

fn pictured(file: &[u8], bytes: &[u8], step: u16, frame: u8) -> Result<Drawn, u8> {
    let no_frame = frame > LAST_FRAME + fault("draw-17") as u8 - fault("draw-15") as u8;
    if no_frame && fault("draw-frame-first") {
        return Err(20);
    }
    let site = read(file, None)?;
    let none = no_frame || (site.centres.is_empty() && !fault("draw-no-centres"));
    if none && fault("draw-20-8") {
        return Err(20);
    }
    let light = read_light(bytes).ok_or(8)?;
    let step = match step {
        step if fault("draw-low-step") => step as usize & 255,
        step if fault("draw-from-1") => (step as usize).wrapping_sub(1),
        step => step as usize,
    };
    let past = step >= light.steps.len();
    let checks: [(u8, &dyn Fn() -> bool); 2] =
        [(10, &|| light.too_large(&site) || (past && fault("draw-past-refused"))), (20, &|| none && !(past && fault("draw-past-first")))];
    first("draw", &checks)?;
    if fault("draw-9") && !(1..=199).contains(&light.tug) {
        return Err(9);
    }
    if fault("draw-11") && rolling(&site, light.goal) {
        return Err(11);
    }
    if fault("draw-chain") && !chains(&site, &light) {
        return Err(17);
    }
    if site.centres.is_empty() {
        return Ok(Drawn::plain(0, OFF_FLOOR));
    }
    Ok(match light.steps.get(step) {
        None if step == light.steps.len() && fault("draw-dwell") => stood(&site, light.goal, frame),
        None => Drawn::plain(0, OFF_FLOOR),
        Some(Step::Wait(_)) => stood(&site, waits_in(&site, &light, step), frame),
        Some(&Step::Move(k)) => {
            let motion = &site.motions[k as usize];
            let (mut from, mut to) = (motion.from, motion.to);
            if fault("draw-exchanged") {
                (from, to) = (to, from);
            }
            if fault("draw-walked") {
                from = moved_to(&site, &light, step);
            }
            let (old, new) = (centre(&site, from), centre(&site, to));
            let within = fault("draw-within-stands") && site.cell(from as usize) == site.cell(to as usize);
            if within || (frame == LAST_FRAME && fault("draw-end-stands")) {
                stood(&site, to, frame)
            } else {
                let share = frame as f32 / if fault("draw-eighths") { 8.0 } else { 16.0 };
                Drawn { number: 0, kind: ROLLING, x: between(old.x, new.x, share), y: between(old.y, new.y, share), share }
            }
        }
    })
}

/// Whether each motion begins in the state in which the one before ended.
fn chains(site: &Site, light: &Light) -> bool {
    let mut state = light.start;
    light.steps.iter().all(|step| match *step {
        Step::Wait(_) => true,
        Step::Move(k) => {
            let joins = site.motions[k as usize].from == state;
            state = site.motions[k as usize].to;
            joins
        }
    })
}

/// Where the last motion before a step leads, or the start.
fn moved_to(site: &Site, light: &Light, step: usize) -> u16 {
    let mut motions = light.steps[..step].iter().rev().filter_map(|step| if let Step::Move(k) = step { Some(*k) } else { None });
    motions.next().map_or(light.start, |k| site.motions[k as usize].to)
}

/// The state in which a wait is drawn.
fn waits_in(site: &Site, light: &Light, step: usize) -> u16 {
    let motion = |step: Option<&Step>| match step {
        Some(&Step::Move(k)) => Some(&site.motions[k as usize]),
        _ => None,
    };
    let (before, next) = (motion(light.steps[..step].last()), motion(light.steps.get(step + 1)));
    match (before, next) {
        _ if fault("draw-wait-start") => light.start,
        (_, Some(next)) if fault("draw-wait-next") => next.from,
        (Some(before), _) if fault("draw-wait-from") => before.from,
        (Some(before), _) => before.to,
        (None, _) => light.start,
    }
}

/// The centre of a state's cell.
fn centre(site: &Site, state: u16) -> Centre {
    let cell = match site.cell(state as usize) {
        cell if fault("draw-low-cell") => cell & 255,
        _ if fault("draw-state-centres") => state as usize % site.c,
        cell => cell,
    };
    match site.centres[cell] {
        Centre { x, .. } if fault("draw-y-from-x") => Centre { x, y: x },
        Centre { x, y } if fault("draw-swapped-bytes") => Centre { x: x.swap_bytes(), y: y.swap_bytes() },
        centre => centre,
    }
}

/// The picture of a tug that stands in a state's cell.
fn stood(site: &Site, state: u16, frame: u8) -> Drawn {
    let at = centre(site, state);
    let kind = if rolling(site, state) && fault("draw-rolling-wait") { ROLLING } else { STANDING };
    let share = if fault("draw-share-of-wait") { frame as f32 / 16.0 } else { 0.0 };
    Drawn { number: 0, kind, x: between(at.x, at.x, 0.0), y: between(at.y, at.y, 0.0), share }
}

fn between(old: u16, new: u16, share: f32) -> f32 {
    let gain = new as f32 - old as f32;
    let at = old as f32 + share * if fault("draw-unsigned") { gain.abs() } else { gain };
    match at {
        at if fault("draw-rounded") => at.round(),
        0.0 if fault("draw-minus-zero") => -0.0,
        at => at,
    }
}
