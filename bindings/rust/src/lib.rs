//! The release desk: routes, lights and a board of bookings for tugs that cannot stop at once.
//!
//! What each call returns and writes is proved of the archive that this package links, `libdispatch_c.a`; the package hands slices over and
//! reads words. docs/FORMATS.md of the repository says what a site file, a board and a light are, byte by byte, and what to do about each
//! refusal.
//!
//! The archive is made by `rt lib` in `crates/dispatch_c`. It is found in `crates/dispatch_c/out` of the repository in which this package stands,
//! or in the folder that the environment variable DISPATCH_LIB_DIR names by an absolute path. Linux on x86-64 alone.
//!
//! ```
//! use dispatch::{Desk, Refusal, Trip};
//!
//! let site = [
//!     1, 0, 7, 0, 20, 0, 2, 0, 2, 0, // head: the last tick is 20; 2 cells, 2 states, no margin
//!     2, 0, 3, 0, 0, 0, // state 0: standing on cell 0
//!     2, 0, 3, 0, 1, 0, // state 1: standing on cell 1
//!     3, 0, 13, 0, 0, 0, 1, 2, // motion 0: from state 0 to 1 in 2 ticks,
//!     0, 0, 0, 1, 0, 1, 1, 2, // on cell 0 at 0 to 1 and on cell 1 at 1 to 2
//! ];
//! let mut desk = Desk::open(&site)?;
//! desk.close(200, 1, 0..=4)?;
//!
//! // Tug 7 from state 0 at tick 0 to state 1, where it unloads for 3 ticks. It waits until cell 1 is open.
//! let trip = Trip { tug: 7, start: 0, tick: 0, goal: 1, dwell: 3 };
//! let granted = desk.route(trip)?;
//! assert_eq!(granted.arrival, 6);
//! desk.post(&granted.light)?;
//! assert_eq!(desk.intervals(1)?, [10..=20]);
//!
//! // The same light again: its tug stands already.
//! let refusal = desk.post(&granted.light).unwrap_err();
//! assert_eq!(refusal, Refusal::HolderStands);
//! assert_eq!(refusal.to_string(), "the tug or closure stands on the board already (12)");
//! # Ok::<(), Refusal>(())
//! ```
#![deny(missing_docs)]

pub mod calls;
mod desk;
mod light;
mod picture;
mod refusal;
mod sizes;
mod word;

pub use desk::{Desk, Granted, Trip};
pub use light::{steps, Step};
pub use picture::{Drawn, Picture, Place, LAST_FRAME};
pub use refusal::Refusal;
pub use sizes::Sizes;
pub use word::Word;

/// The most bytes of stack that [`Desk::route`] and [`calls::route`] take in the archive, also to refuse. A thread needs some more for itself, for
/// which 16 KiB are plenty; threads of the standard library have 2 MiB unless they are told otherwise.
pub const STACK_ROUTE: usize = 1_000_000;

/// The most bytes of stack that audit, post and draw take in the archive, also to refuse.
pub const STACK_LIGHT: usize = 18_000;

/// The most bytes of stack that each of the other calls takes in the archive.
pub const STACK: usize = 1_000;

/// The fewest ticks from rest to rest that cover at least a distance of 0 to 511 decimetres, at speeds of at most 15 decimetres a tick that
/// change by at most 1 from a tick to the next. No site is needed.
///
/// ```
/// use dispatch::{travel, Refusal};
///
/// assert_eq!(travel(225), Ok(30));
/// assert_eq!(travel(512), Err(Refusal::TooFar));
/// ```
pub fn travel(distance: u32) -> Result<u16, Refusal> {
    calls::travel(distance).accepted().map(Word::ticks)
}
