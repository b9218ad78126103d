//! The sizes that a site file gives, and those of the areas.

/// The last tick, the cells, the states and the margin of a site, as the head of its file has them. The first three size the areas that
/// calls are lent.
#[derive(Clone, Copy, PartialEq, Eq, Hash, Debug)]
pub struct Sizes {
    /// H: ticks run from 0 to it.
    pub horizon: u16,
    /// C: cells run from 0 to C − 1.
    pub cells: u16,
    /// S: states run from 0 to S − 1.
    pub states: u16,
    /// m: around every tug, so many ticks of its cell stay free of others.
    pub margin: u16,
}

impl Sizes {
    /// The largest numbers that a site can have: enough for areas that serve every site.
    pub const MOST: Sizes = Sizes { horizon: 1_000, cells: 1_000, states: 1_280, margin: 20 };

    /// What the head says, or nothing if the file is too short to have one, or if H, C or S is larger than it may be: no call accepts such a
    /// file, whatever the areas are, and a board for it could have 4 GiB. Nothing else is checked: the numbers mean something once a call has
    /// accepted the file.
    ///
    /// ```
    /// use dispatch::{calls, Refusal, Sizes};
    ///
    /// // One cell, on which a tug can stand for the ticks 0 to 9; then with 65,535 cells.
    /// let mut site = [1, 0, 7, 0, 9, 0, 1, 0, 1, 0, 2, 0, 3, 0, 0, 0];
    /// assert_eq!(Sizes::of(&site).unwrap().board_bytes(), 14);
    /// site[5..7].fill(255);
    /// assert_eq!(Sizes::of(&site), None);
    /// assert_eq!(calls::open(&site, &mut []).refusal(), Some(Refusal::SiteHead));
    /// ```
    pub fn of(site: &[u8]) -> Option<Sizes> {
        let &[_, _, _, h1, h0, c1, c0, s1, s0, margin] = site.first_chunk()?;
        let [horizon, cells, states] = [[h1, h0], [c1, c0], [s1, s0]].map(u16::from_be_bytes);
        let most = Sizes::MOST;
        let in_range = horizon <= most.horizon && cells <= most.cells && states <= most.states;
        in_range.then_some(Sizes { horizon, cells, states, margin: margin.into() })
    }

    /// The bytes of a cell's row on the board.
    pub(crate) fn ticks(self) -> usize {
        usize::from(self.horizon) + 1
    }

    /// The length of a board: just that many bytes.
    pub fn board_bytes(self) -> usize {
        4 + usize::from(self.cells) * self.ticks()
    }

    /// The least length of a route's output area.
    pub fn light_bytes(self) -> usize {
        18 + 5 * usize::from(self.horizon)
    }

    /// The least length of a route's working area, in 32-bit words.
    pub fn work_words(self) -> usize {
        usize::from(self.states) * self.ticks()
    }

    /// The least length of an interval call's area, in 16-bit numbers.
    pub fn interval_numbers(self) -> usize {
        usize::from(self.horizon) + 2
    }
}
