//! The calls as they are, over areas of your own: any bytes and any lengths are answered, and nothing is allocated.
//!
//! [`Desk`](crate::Desk) is made of these; use them where memory is yours to place, or where a board is shared.
//!
//! ```
//! use dispatch::{calls, Refusal, Sizes};
//!
//! // One cell, on which a tug can stand for the ticks 0 to 9.
//! let site = [1, 0, 7, 0, 9, 0, 1, 0, 1, 0, 2, 0, 3, 0, 0, 0];
//! let sizes = Sizes::of(&site).unwrap();
//! let mut board = vec![0; sizes.board_bytes()];
//! calls::open(&site, &mut board).accepted()?;
//! calls::close(&site, &mut board, 200, 0, 3, 4).accepted()?;
//!
//! let mut numbers = vec![0; sizes.interval_numbers()];
//! let found = calls::interval(&site, &board, 0, &mut numbers).accepted()?;
//! assert_eq!(found.count(), 2);
//! assert_eq!(numbers[..4], [0, 2, 5, 9]);
//!
//! // An area that is one number too short.
//! let short = calls::interval(&site, &board, 0, &mut numbers[1..]);
//! assert_eq!(short.refusal(), Some(Refusal::AreaShort));
//! # Ok::<(), Refusal>(())
//! ```

use crate::{Drawn, Word};

// As include/dispatch.h declares them.
unsafe extern "C" {
    fn dispatch_open(site: *const u8, site_len: usize, board: *mut u8, board_len: usize) -> u64;
    fn dispatch_interval(site: *const u8, site_len: usize, board: *const u8, board_len: usize, cell: u16, out: *mut u16, out_len: usize) -> u64;
    fn dispatch_route(
        site: *const u8,
        site_len: usize,
        board: *const u8,
        board_len: usize,
        tug: u8,
        start: u16,
        tick: u16,
        goal: u16,
        dwell: u16,
        out: *mut u8,
        out_len: usize,
        work: *mut u32,
        work_len: usize,
    ) -> u64;
    fn dispatch_audit(site: *const u8, site_len: usize, board: *const u8, board_len: usize, light: *const u8, light_len: usize) -> u64;
    fn dispatch_post(site: *const u8, site_len: usize, board: *mut u8, board_len: usize, light: *const u8, light_len: usize) -> u64;
    fn dispatch_close(site: *const u8, site_len: usize, board: *mut u8, board_len: usize, holder: u8, cell: u16, first: u16, last: u16) -> u64;
    fn dispatch_withdraw(site: *const u8, site_len: usize, board: *mut u8, board_len: usize, holder: u8) -> u64;
    fn dispatch_travel(distance: u32) -> u64;
    fn dispatch_draw(site: *const u8, site_len: usize, light: *const u8, light_len: usize, step: u16, frame: u8) -> Drawn;
}

// SAFETY, of each call below: the exported functions ask nothing of their arguments but that areas have their lengths, are aligned, and do not
// overlap where one is written. Slices are so: each is valid for its length, and a `&mut` one overlaps no other.

/// Sets every byte of the board to 0.
#[must_use = "a call may be refused"]
pub fn open(site: &[u8], board: &mut [u8]) -> Word {
    Word(unsafe { dispatch_open(site.as_ptr(), site.len(), board.as_mut_ptr(), board.len()) })
}

/// Writes the first and the last tick of each safe interval of the cell. The area has at least [`Sizes::interval_numbers`](crate::Sizes::interval_numbers);
/// later numbers stay.
#[must_use = "a call may be refused"]
pub fn interval(site: &[u8], board: &[u8], cell: u16, out: &mut [u16]) -> Word {
    Word(unsafe { dispatch_interval(site.as_ptr(), site.len(), board.as_ptr(), board.len(), cell, out.as_mut_ptr(), out.len()) })
}

/// Writes the light of the plan with the least arrival into `out`, which has at least [`Sizes::light_bytes`](crate::Sizes::light_bytes). The
/// working area has at least [`Sizes::work_words`](crate::Sizes::work_words), which are zero after a grant or
/// [`Refusal::NoPlan`](crate::Refusal::NoPlan). It takes up to [`STACK_ROUTE`](crate::STACK_ROUTE) bytes of stack.
#[allow(clippy::too_many_arguments)]
#[must_use = "a call may be refused"]
pub fn route(site: &[u8], board: &[u8], tug: u8, start: u16, tick: u16, goal: u16, dwell: u16, out: &mut [u8], work: &mut [u32]) -> Word {
    Word(unsafe {
        dispatch_route(
            site.as_ptr(),
            site.len(),
            board.as_ptr(),
            board.len(),
            tug,
            start,
            tick,
            goal,
            dwell,
            out.as_mut_ptr(),
            out.len(),
            work.as_mut_ptr(),
            work.len(),
        )
    })
}

/// Answers as [`post`] would, and writes nothing.
#[must_use = "a call may be refused"]
pub fn audit(site: &[u8], board: &[u8], light: &[u8]) -> Word {
    Word(unsafe { dispatch_audit(site.as_ptr(), site.len(), board.as_ptr(), board.len(), light.as_ptr(), light.len()) })
}

/// Writes the light's tug over the pairs that its plan holds, and adds 1 to the edition.
#[must_use = "a call may be refused"]
pub fn post(site: &[u8], board: &mut [u8], light: &[u8]) -> Word {
    Word(unsafe { dispatch_post(site.as_ptr(), site.len(), board.as_mut_ptr(), board.len(), light.as_ptr(), light.len()) })
}

/// Writes the closure over the cell's ticks from the first to the last, and adds 1 to the edition.
#[must_use = "a call may be refused"]
pub fn close(site: &[u8], board: &mut [u8], holder: u8, cell: u16, first: u16, last: u16) -> Word {
    Word(unsafe { dispatch_close(site.as_ptr(), site.len(), board.as_mut_ptr(), board.len(), holder, cell, first, last) })
}

/// Clears every byte of one holder, and adds 1 to the edition.
#[must_use = "a call may be refused"]
pub fn withdraw(site: &[u8], board: &mut [u8], holder: u8) -> Word {
    Word(unsafe { dispatch_withdraw(site.as_ptr(), site.len(), board.as_mut_ptr(), board.len(), holder) })
}

/// The fewest ticks from rest to rest that cover at least a distance of 0 to 511 decimetres.
#[must_use = "a call may be refused"]
pub fn travel(distance: u32) -> Word {
    Word(unsafe { dispatch_travel(distance) })
}

/// Draws one step of a light, counted from 0, at a frame from 0 to [`LAST_FRAME`](crate::LAST_FRAME). No board is lent, and nothing is written.
#[must_use = "a call may be refused"]
pub fn draw(site: &[u8], light: &[u8], step: u16, frame: u8) -> Drawn {
    unsafe { dispatch_draw(site.as_ptr(), site.len(), light.as_ptr(), light.len(), step, frame) }
}
