//! The reasons why a call is refused.

use std::error::Error;
use std::fmt;

/// Each reason is written once: its name, its number and what it says.
macro_rules! refusals {
    ($($name:ident = $number:literal, $text:literal;)*) => {
        /// The reason of a refusal. There is exactly one each time, the first that applies; docs/FORMATS.md says of each number
        /// which calls give it and what to do about it.
        #[derive(Clone, Copy, PartialEq, Eq, Hash, Debug)]
        #[repr(u8)]
        #[non_exhaustive]
        pub enum Refusal {
            $(
                #[doc = concat!(stringify!($number), ": ", $text, ".")]
                $name = $number,
            )*
        }

        impl Refusal {
            /// Every reason, by rising numbers.
            pub const ALL: &'static [Refusal] = &[$(Refusal::$name),*];

            /// What the reason says, in English.
            pub const fn text(self) -> &'static str {
                match self {
                    $(Refusal::$name => $text,)*
                }
            }
        }
    };
}

refusals! {
    SiteTooLong = 1, "the site file has more than 65,536 bytes";
    SiteCut = 2, "a field of the site file runs past the file's end";
    SiteHead = 3, "the site file does not begin with a head of 7 bytes with H, C, S and m in range";
    SiteLayout = 4, "the site file's states, motions or centres have a wrong tag, length, order or number";
    StateCell = 5, "a state of the site names a cell that the hall does not have";
    Motion = 6, "a motion of the site breaks a rule on its values or sweeps";
    BoardLength = 7, "the board does not have the length that the site needs";
    LightLayout = 8, "the light is empty, too long, cut short or against its layout";
    HolderRange = 9, "the number of the tug, closure or holder is out of range";
    OutOfRange = 10, "a cell, state, tick, motion or dwell is too large, or the first tick is past the last";
    GoalRolling = 11, "the goal is not a standing state";
    HolderStands = 12, "the tug or closure stands on the board already";
    HolderAbsent = 13, "the holder does not stand on the board";
    AreaShort = 14, "a lent area is too short";
    LastEdition = 15, "the board is at its last edition, 4,294,967,295";
    StaleLight = 16, "the light was made from another edition of the board";
    Conflict = 17, "a wanted cell is held or near a tug, or the light is no valid plan to its goal and arrival";
    NoPlan = 18, "no valid plan exists";
    TooFar = 19, "the distance is above 511 decimetres";
    NoPicture = 20, "the frame is above 16, or the site has no centres";
}

impl Refusal {
    /// The number of the reason.
    pub const fn number(self) -> u8 {
        self as u8
    }

    /// The reason that has a number; none has 0, which is an accepted call.
    pub fn of(number: u8) -> Option<Refusal> {
        Refusal::ALL.iter().copied().find(|refusal| refusal.number() == number)
    }
}

/// What the reason says, with its number: `no valid plan exists (18)`.
impl fmt::Display for Refusal {
    fn fmt(&self, f: &mut fmt::Formatter<'_>) -> fmt::Result {
        write!(f, "{} ({})", self.text(), self.number())
    }
}

impl Error for Refusal {}
