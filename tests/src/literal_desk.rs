//! The eight calls on a site as docs/FORMATS.md reads, on `literal`: over a board of any bytes, each call's checks in the order of their numbers.
//! `plain_board` says the same of boards that open has made and nobody else has written.

use crate::desk::{Answer, Drawn, OFF_FLOOR, ROLLING, STANDING};
use crate::literal::{number, Light, Picture, Site, LAST_FRAME, MAX_DWELL};

type Pair = (usize, usize);

fn refuse(number: u8, applies: bool) -> Result<(), u8> {
    if applies {
        Err(number)
    } else {
        Ok(())
    }
}

fn answer(result: Result<(), u8>) -> Answer {
    Answer::plain(result.err().unwrap_or(0))
}

/// Checks 1 to 7.
fn enter(file: &[u8], board: &[u8]) -> Result<Site, u8> {
    let site = Site::read(file)?;
    refuse(7, board.len() != site.board_len())?;
    Ok(site)
}

/// Where the byte of a cell and tick lies.
fn place(site: &Site, (cell, tick): Pair) -> usize {
    4 + cell * (site.h + 1) + tick
}

/// What is free for a tug: no byte of the cell is held from m ticks earlier to m later.
pub(crate) fn free<'a>(site: &'a Site, board: &'a [u8]) -> impl Fn(usize, usize) -> bool + 'a {
    move |cell, tick| site.around(tick).all(|at| board[place(site, (cell, at))] == 0)
}

/// Whether a closure can't have a pair: it is held, or a tug has a byte in that cell within m ticks of it.
fn kept_open(site: &Site, board: &[u8], (cell, tick): Pair) -> bool {
    let byte = |at| board[place(site, (cell, at))];
    byte(tick) != 0 || site.around(tick).any(|at| (1..=199).contains(&byte(at)))
}

fn stands(board: &[u8], holder: u8) -> bool {
    board[4..].contains(&holder)
}

fn edition(board: &[u8]) -> u32 {
    number(&board[..4]) as u32
}

/// Writes a byte over the pairs and adds 1 to the edition.
fn change(site: &Site, board: &mut [u8], byte: u8, pairs: Vec<Pair>) {
    for pair in pairs {
        board[place(site, pair)] = byte;
    }
    let next = edition(board) + 1;
    board[..4].copy_from_slice(&next.to_be_bytes());
}

pub fn open(file: &[u8], board: &mut [u8]) -> Answer {
    answer(enter(file, board).map(|_| board.fill(0)))
}

pub fn interval(file: &[u8], board: &[u8], cell: u16, out: &mut [u16]) -> Answer {
    let checked = enter(file, board).and_then(|site| {
        refuse(10, cell as usize >= site.c)?;
        refuse(14, out.len() < site.h + 2)?;
        Ok(site.intervals(&free(&site, board), cell as usize))
    });
    match checked {
        Err(number) => Answer::plain(number),
        Ok(all) => {
            for (i, &(first, last)) in all.iter().enumerate() {
                out[2 * i..2 * i + 2].copy_from_slice(&[first, last]);
            }
            Answer { number: 0, value: all.len() as u32, arrival: 0 }
        }
    }
}

#[allow(clippy::too_many_arguments)]
pub fn route(file: &[u8], board: &[u8], tug: u8, start: u16, tick: u16, goal: u16, dwell: u16, out: &mut [u8], work: &mut [u32]) -> Answer {
    let checked = enter(file, board).and_then(|site| {
        let s = site.states.len();
        refuse(9, !(1..=199).contains(&tug))?;
        refuse(10, start as usize >= s || tick as usize > site.h || goal as usize >= s || dwell > MAX_DWELL)?;
        refuse(11, !site.standing(goal as usize))?;
        refuse(12, stands(board, tug))?;
        refuse(14, out.len() < site.output_len() || work.len() < s * (site.h + 1))?;
        Ok(site)
    });
    let site = match checked {
        Err(number) => return Answer::plain(number),
        Ok(site) => site,
    };
    work[..site.states.len() * (site.h + 1)].fill(0);
    let found = site.route(&free(&site, board), start as usize, tick as usize, goal as usize, dwell as usize);
    match found {
        None => Answer::plain(18),
        Some((steps, arrival)) => {
            let light = Light { edition: edition(board), tug, start, tick, goal, arrival: arrival as u16, dwell, steps }.encode();
            out[..light.len()].copy_from_slice(&light);
            Answer { number: 0, value: light.len() as u32, arrival: arrival as u32 }
        }
    }
}

/// Checks 1 to 17 of post and audit. Gives the tug and the pairs that its plan holds.
fn check(file: &[u8], board: &[u8], bytes: &[u8]) -> Result<(Site, u8, Vec<Pair>), u8> {
    let site = enter(file, board)?;
    let light = Light::read(bytes).ok_or(8)?;
    refuse(9, !(1..=199).contains(&light.tug))?;
    refuse(10, light.too_large(&site))?;
    refuse(11, !site.standing(light.goal as usize))?;
    refuse(12, stands(board, light.tug))?;
    refuse(15, edition(board) == u32::MAX)?;
    refuse(16, light.edition != edition(board))?;
    let pairs = site.plan(&free(&site, board), &light).ok_or(17)?;
    Ok((site, light.tug, pairs))
}

pub fn audit(file: &[u8], board: &[u8], light: &[u8]) -> Answer {
    answer(check(file, board, light).map(|_| ()))
}

pub fn post(file: &[u8], board: &mut [u8], light: &[u8]) -> Answer {
    answer(check(file, board, light).map(|(site, tug, pairs)| change(&site, board, tug, pairs)))
}

pub fn close(file: &[u8], board: &mut [u8], holder: u8, cell: u16, first: u16, last: u16) -> Answer {
    let checked = enter(file, board).and_then(|site| {
        refuse(9, !(200..=254).contains(&holder))?;
        refuse(10, cell as usize >= site.c || first as usize > site.h || last as usize > site.h || first > last)?;
        refuse(12, stands(board, holder))?;
        refuse(15, edition(board) == u32::MAX)?;
        let pairs: Vec<Pair> = (first..=last).map(|tick| (cell as usize, tick as usize)).collect();
        refuse(17, pairs.iter().any(|&pair| kept_open(&site, board, pair)))?;
        Ok((site, pairs))
    });
    answer(checked.map(|(site, pairs)| change(&site, board, holder, pairs)))
}

pub fn withdraw(file: &[u8], board: &mut [u8], holder: u8) -> Answer {
    let checked = enter(file, board).and_then(|site| {
        refuse(9, !(1..=254).contains(&holder))?;
        refuse(13, !stands(board, holder))?;
        refuse(15, edition(board) == u32::MAX)?;
        Ok(site)
    });
    answer(checked.map(|site| {
        let pairs = (0..site.c).flat_map(|cell| (0..=site.h).map(move |tick| (cell, tick)));
        let held = pairs.filter(|&pair| board[place(&site, pair)] == holder).collect();
        change(&site, board, 0, held);
    }))
}

/// So many sixteenths as a float, bit by bit: the highest bit is the float's leading one, and the lower ones begin its fraction. There are at most
/// 20 bits, and a fraction has room for 23.
pub fn float(sixteenths: u32) -> f32 {
    assert!(sixteenths < 1 << 20);
    if sixteenths == 0 {
        return 0.0;
    }
    let highest = 31 - sixteenths.leading_zeros();
    let fraction = (sixteenths ^ 1 << highest) << (23 - highest);
    // Exponents are written with 127 more, and a sixteenth is 2 to the power of -4.
    f32::from_bits((highest + 127 - 4) << 23 | fraction)
}

/// The picture of the calls' checks, exact and without floats.
pub fn picture(file: &[u8], bytes: &[u8], step: u16, frame: u8) -> Result<Picture, u8> {
    let site = Site::read(file)?;
    let light = Light::read(bytes).ok_or(8)?;
    refuse(10, light.too_large(&site))?;
    refuse(20, frame > LAST_FRAME || site.centres.is_empty())?;
    Ok(site.picture(&light, step as usize, frame))
}

pub fn draw(file: &[u8], bytes: &[u8], step: u16, frame: u8) -> Drawn {
    match picture(file, bytes, step, frame) {
        Err(number) => Drawn::plain(number, OFF_FLOOR),
        Ok(Picture::OffFloor) => Drawn::plain(0, OFF_FLOOR),
        Ok(Picture::Standing((x, y))) => Drawn { number: 0, kind: STANDING, x: float(x), y: float(y), share: 0.0 },
        Ok(Picture::Rolling((x, y), share)) => Drawn { number: 0, kind: ROLLING, x: float(x), y: float(y), share: float(share) },
    }
}
