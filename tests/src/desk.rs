//! The nine calls of the desk, by the package in bindings/rust, with all of what they return.

/// What a call returns in its word: its number, then the light's length (route), the count (interval), the entry (travel) or the kind of the picture
/// (draw), then the arrival (route).
#[derive(Clone, Copy, PartialEq, Eq, Debug)]
pub struct Answer {
    pub number: u8,
    pub value: u32,
    pub arrival: u32,
}

impl Answer {
    /// A refusal, or 0 for an accepted call without values.
    pub fn plain(number: u8) -> Answer {
        Answer { number, value: 0, arrival: 0 }
    }

    /// All 64 bits of the result are used, so equal answers are equal results.
    pub fn of(result: u64) -> Answer {
        Answer { number: result as u8, value: (result >> 8) as u32 & 0xff_ffff, arrival: (result >> 32) as u32 }
    }
}

// The kinds of pictures.
pub const OFF_FLOOR: u64 = 0;
pub const STANDING: u64 = 1;
pub const ROLLING: u64 = 2;

/// What draw returns: its number, all bits of its word above the number, and the three floats beside it.
#[derive(Clone, Copy, Debug)]
pub struct Drawn {
    pub number: u8,
    pub kind: u64,
    pub x: f32,
    pub y: f32,
    pub share: f32,
}

impl Drawn {
    /// A refusal, or a picture without a place.
    pub fn plain(number: u8, kind: u64) -> Drawn {
        Drawn { number, kind, x: 0.0, y: 0.0, share: 0.0 }
    }

    pub fn of(word: u64, [x, y, share]: [f32; 3]) -> Drawn {
        Drawn { number: word as u8, kind: word >> 8, x, y, share }
    }

    /// The word.
    pub fn answer(&self) -> Answer {
        Answer::of(self.kind << 8 | self.number as u64)
    }

    /// x, y and share.
    pub fn bits(&self) -> [u32; 3] {
        [self.x, self.y, self.share].map(f32::to_bits)
    }
}

/// Floats are compared by their bits: 0 and -0 are not the same, and a NaN is the same as itself.
impl PartialEq for Drawn {
    fn eq(&self, other: &Drawn) -> bool {
        (self.number, self.kind, self.bits()) == (other.number, other.kind, other.bits())
    }
}

#[cfg(not(feature = "standin"))]
mod archive {
    use super::{Answer, Drawn};
    use dispatch::calls;

    pub fn open(site: &[u8], board: &mut [u8]) -> Answer {
        Answer::of(calls::open(site, board).0)
    }

    pub fn interval(site: &[u8], board: &[u8], cell: u16, out: &mut [u16]) -> Answer {
        Answer::of(calls::interval(site, board, cell, out).0)
    }

    #[allow(clippy::too_many_arguments)]
    pub fn route(site: &[u8], board: &[u8], tug: u8, start: u16, tick: u16, goal: u16, dwell: u16, out: &mut [u8], work: &mut [u32]) -> Answer {
        Answer::of(calls::route(site, board, tug, start, tick, goal, dwell, out, work).0)
    }

    pub fn audit(site: &[u8], board: &[u8], light: &[u8]) -> Answer {
        Answer::of(calls::audit(site, board, light).0)
    }

    pub fn post(site: &[u8], board: &mut [u8], light: &[u8]) -> Answer {
        Answer::of(calls::post(site, board, light).0)
    }

    pub fn close(site: &[u8], board: &mut [u8], holder: u8, cell: u16, first: u16, last: u16) -> Answer {
        Answer::of(calls::close(site, board, holder, cell, first, last).0)
    }

    pub fn withdraw(site: &[u8], board: &mut [u8], holder: u8) -> Answer {
        Answer::of(calls::withdraw(site, board, holder).0)
    }

    pub fn travel(distance: u32) -> Answer {
        Answer::of(calls::travel(distance).0)
    }

    pub fn draw(site: &[u8], light: &[u8], step: u16, frame: u8) -> Drawn {
        let drawn = calls::draw(site, light, step, frame);
        Drawn::of(drawn.word.0, [drawn.x, drawn.y, drawn.share])
    }
}

#[cfg(not(feature = "standin"))]
pub use archive::{audit, close, draw, interval, open, post, route, travel, withdraw};

#[cfg(feature = "standin")]
pub use crate::standin::{audit, close, draw, interval, open, post, route, travel, withdraw};
