//! The word that a call returns.

use crate::Refusal;

/// What a call of [`calls`](crate::calls) returns: its number in the low 8 bits, and above them the values of an accepted call. All values of
/// a refused call are 0. [`draw`](crate::calls::draw) returns it as a field of [`Drawn`](crate::Drawn).
#[derive(Clone, Copy, PartialEq, Eq, Hash, Debug)]
#[repr(transparent)]
pub struct Word(pub u64);

impl Word {
    /// 0 for an accepted call, else the number of the refusal.
    pub const fn number(self) -> u8 {
        self.0 as u8
    }

    /// The reason of the refusal, or nothing for an accepted call.
    ///
    /// # Panics
    ///
    /// If the archive gives a number that this package does not know: the two are of different versions.
    pub fn refusal(self) -> Option<Refusal> {
        let (number, reason) = (self.number(), Refusal::of(self.number()));
        assert!(number == 0 || reason.is_some(), "the archive answers {number}, which this package does not know: they are of different versions");
        reason
    }

    /// The word of an accepted call, or the reason of the refusal.
    ///
    /// # Panics
    ///
    /// As [`Word::refusal`].
    pub fn accepted(self) -> Result<Word, Refusal> {
        self.refusal().map_or(Ok(self), Err)
    }

    /// How many intervals [`interval`](crate::calls::interval) has written.
    pub const fn count(self) -> usize {
        (self.0 >> 8) as usize
    }

    /// What [`travel`](crate::calls::travel) answers.
    pub const fn ticks(self) -> u16 {
        (self.0 >> 8) as u16
    }

    /// The bytes of the light that [`route`](crate::calls::route) has written.
    pub const fn length(self) -> usize {
        (self.0 >> 8 & 0xff_ffff) as usize
    }

    /// The tick at which the route of [`route`](crate::calls::route) arrives.
    pub const fn arrival(self) -> u16 {
        (self.0 >> 32) as u16
    }

    /// The kind of picture that [`draw`](crate::calls::draw) has drawn: 0 off the floor, 1 standing, 2 rolling. [`Drawn::picture`](crate::Drawn::picture)
    /// reads it.
    pub const fn kind(self) -> u8 {
        (self.0 >> 8) as u8
    }
}
