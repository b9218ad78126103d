//! Where a tug is drawn.

use crate::{Refusal, Word};

/// The last frame of a step; the first is 0.
pub const LAST_FRAME: u8 = 16;

/// A place on the floor, in millimetres, as the centres of the site file are.
#[derive(Clone, Copy, PartialEq, Debug)]
pub struct Place {
    /// The first number of a centre.
    pub x: f32,
    /// The second one.
    pub y: f32,
}

/// What is seen of a tug in one frame of a step.
#[derive(Clone, Copy, PartialEq, Debug)]
pub enum Picture {
    /// It is not on the floor: the light has no such step.
    OffFloor,
    /// It stands at a place: the step is a wait.
    Standing(Place),
    /// It rolls at a place, with its share of the motion, 0 to 1: the step is a motion.
    Rolling(Place, f32),
}

/// What [`calls::draw`](crate::calls::draw) returns. [`Drawn::picture`] reads it.
#[derive(Clone, Copy, PartialEq, Debug)]
#[repr(C)]
pub struct Drawn {
    /// The number, and the kind of picture.
    pub word: Word,
    /// x of the place; 0 if there is none.
    pub x: f32,
    /// y of the place; 0 if there is none.
    pub y: f32,
    /// The share of the motion; 0 unless the tug rolls.
    pub share: f32,
}

impl Drawn {
    /// The picture, or the reason of the refusal.
    ///
    /// ```
    /// use dispatch::{calls, Refusal};
    ///
    /// let drawn = calls::draw(&[], &[], 0, 17);
    /// assert_eq!(drawn.picture(), Err(Refusal::SiteHead));
    /// assert_eq!((drawn.x, drawn.y, drawn.share), (0.0, 0.0, 0.0));
    /// ```
    ///
    /// # Panics
    ///
    /// If the archive gives a number or a kind of picture that this package does not know: the two are of different versions.
    pub fn picture(self) -> Result<Picture, Refusal> {
        let kind = self.word.accepted()?.kind();
        let place = Place { x: self.x, y: self.y };
        match kind {
            0 => Ok(Picture::OffFloor),
            1 => Ok(Picture::Standing(place)),
            2 => Ok(Picture::Rolling(place, self.share)),
            _ => panic!("the archive draws the kind {kind}, which this package does not know: they are of different versions"),
        }
    }
}
