//! A site with its board.

use crate::{calls, Picture, Refusal, Sizes};
use std::ops::RangeInclusive;

/// A site with its board of bookings, and areas of the right sizes. All calls but [`travel`](crate::travel) are made through it.
///
/// A refused call changes nothing.
#[derive(Clone, PartialEq, Eq, Debug)]
pub struct Desk {
    site: Vec<u8>,
    sizes: Sizes,
    board: Vec<u8>,
}

/// What a route is asked for.
#[derive(Clone, Copy, PartialEq, Eq, Hash, Debug)]
pub struct Trip {
    /// The tug, 1 to 199.
    pub tug: u8,
    /// The state in which it starts.
    pub start: u16,
    /// The tick at which it is there.
    pub tick: u16,
    /// The standing state to which it is to go.
    pub goal: u16,
    /// How many ticks it unloads there, 0 to 1,000.
    pub dwell: u16,
}

/// A route that is granted. It books nothing until its light is posted.
#[derive(Clone, PartialEq, Eq, Hash, Debug)]
pub struct Granted {
    /// The light: the plan, with the edition of the board that it was made from. [`steps`](crate::steps) reads what the tug does.
    pub light: Vec<u8>,
    /// The tick at which the tug is at its goal; no plan that can unload there arrives earlier.
    pub arrival: u16,
}

impl Desk {
    /// Opens a fresh board for the bytes of a site file: nothing is booked, and the edition is 0.
    ///
    /// ```
    /// use dispatch::{Desk, Refusal};
    ///
    /// assert_eq!(Desk::open(&[]), Err(Refusal::SiteHead));
    /// ```
    pub fn open(site: &[u8]) -> Result<Desk, Refusal> {
        // Without a board an accepted site is refused for that alone, so a faulty head sizes nothing.
        match calls::open(site, &mut []).refusal() {
            Some(Refusal::BoardLength) => {}
            Some(refusal) => return Err(refusal),
            None => unreachable!("no board has 0 bytes"),
        }
        let sizes = Sizes::of(site).expect("an accepted site has a head in range");
        let mut board = vec![0; sizes.board_bytes()];
        calls::open(site, &mut board).accepted()?;
        Ok(Desk { site: site.to_vec(), sizes, board })
    }

    /// Goes on with a board that [`Desk::board`] gave earlier, for the same site.
    ///
    /// ```
    /// use dispatch::{Desk, Refusal};
    ///
    /// let site = [1, 0, 7, 0, 9, 0, 1, 0, 1, 0, 2, 0, 3, 0, 0, 0];
    /// let mut desk = Desk::open(&site)?;
    /// desk.close(200, 0, 3..=4)?;
    /// let kept = desk.board().to_vec();
    /// // after a restart
    /// let desk = Desk::resume(&site, &kept)?;
    /// assert_eq!(desk.edition(), 1);
    /// assert_eq!(Desk::resume(&site, &[]), Err(Refusal::BoardLength));
    /// # Ok::<(), Refusal>(())
    /// ```
    pub fn resume(site: &[u8], board: &[u8]) -> Result<Desk, Refusal> {
        let fresh = Desk::open(site)?;
        if board.len() != fresh.board.len() {
            return Err(Refusal::BoardLength);
        }
        Ok(Desk { board: board.to_vec(), ..fresh })
    }

    /// The bytes of the site file.
    pub fn site(&self) -> &[u8] {
        &self.site
    }

    /// The last tick, the cells and the states of the site.
    pub fn sizes(&self) -> Sizes {
        self.sizes
    }

    /// The bytes of the board, to keep them. [`Desk::resume`] goes on with them.
    pub fn board(&self) -> &[u8] {
        &self.board
    }

    /// How often the board has changed.
    pub fn edition(&self) -> u32 {
        u32::from_be_bytes([self.board[0], self.board[1], self.board[2], self.board[3]])
    }

    /// Who holds a cell at a tick: 0 nobody, 1 to 199 a tug, 200 to 254 a closure, 255 nobody known. Nothing for a cell or tick that the site
    /// does not have.
    pub fn holder(&self, cell: u16, tick: u16) -> Option<u8> {
        let inside = cell < self.sizes.cells && tick <= self.sizes.horizon;
        inside.then(|| self.board[4 + usize::from(cell) * self.sizes.ticks() + usize::from(tick)])
    }

    /// The safe intervals of a cell, in rising order: the runs of free ticks that can't be lengthened. A cell is free at a tick if nobody
    /// holds it from the site's margin before it to the margin after it.
    pub fn intervals(&self, cell: u16) -> Result<Vec<RangeInclusive<u16>>, Refusal> {
        let mut numbers = vec![0; self.sizes.interval_numbers()];
        let count = calls::interval(&self.site, &self.board, cell, &mut numbers).accepted()?.count();
        Ok(numbers[..2 * count].chunks(2).map(|ends| ends[0]..=ends[1]).collect())
    }

    /// Finds the route with the least arrival among all plans that can unload at their goal. [`Refusal::NoPlan`] means that there is none.
    ///
    /// It takes up to [`STACK_ROUTE`](crate::STACK_ROUTE) bytes of stack, and allocates its areas; [`calls::route`] takes areas of your own.
    pub fn route(&self, trip: Trip) -> Result<Granted, Refusal> {
        let Trip { tug, start, tick, goal, dwell } = trip;
        let mut light = vec![0; self.sizes.light_bytes()];
        let mut work = vec![0; self.sizes.work_words()];
        let word = calls::route(&self.site, &self.board, tug, start, tick, goal, dwell, &mut light, &mut work).accepted()?;
        light.truncate(word.length());
        Ok(Granted { light, arrival: word.arrival() })
    }

    /// Whether [`Desk::post`] would book the light now.
    pub fn audit(&self, light: &[u8]) -> Result<(), Refusal> {
        calls::audit(&self.site, &self.board, light).accepted().map(drop)
    }

    /// Books a light: every cell and tick that its plan holds, those of its dwell among them. The edition rises by 1.
    pub fn post(&mut self, light: &[u8]) -> Result<(), Refusal> {
        calls::post(&self.site, &mut self.board, light).accepted().map(drop)
    }

    /// Closes a cell for a run of ticks, under a closure's number, 200 to 254. Nobody may hold these ticks, and no tug the cell within the
    /// site's margin of them; closures may touch each other. The edition rises by 1.
    pub fn close(&mut self, closure: u8, cell: u16, ticks: RangeInclusive<u16>) -> Result<(), Refusal> {
        calls::close(&self.site, &mut self.board, closure, cell, *ticks.start(), *ticks.end()).accepted().map(drop)
    }

    /// Takes all bookings of a tug or closure, 1 to 254, off the board. The edition rises by 1.
    pub fn withdraw(&mut self, holder: u8) -> Result<(), Refusal> {
        calls::withdraw(&self.site, &mut self.board, holder).accepted().map(drop)
    }

    /// Draws one step of a light, counted from 0, at a frame from 0 to [`LAST_FRAME`](crate::LAST_FRAME). The site has to have the centres of its
    /// cells; all other calls answer the same with them and without. The light need not be posted, and the board does not matter.
    ///
    /// A motion rolls from the centre of its from state's cell to that of its to state's, by a sixteenth of the difference a frame. A wait stands
    /// where the motion before it ends, or at the centre of the start state's cell. A step past the last is off the floor.
    ///
    /// ```
    /// use dispatch::{Desk, Picture, Place, Refusal, Trip};
    ///
    /// // Two cells, a motion from the first to the second in 2 ticks, and the centres, 1,000 millimetres apart.
    /// let site = [
    ///     1, 0, 7, 0, 20, 0, 2, 0, 2, 0, 2, 0, 3, 0, 0, 0, 2, 0, 3, 0, 1, 0, 3, 0, 13, 0, 0, 0, 1, 2, 0, 0, 0, 1, 0, 1, 1, 2, //
    ///     4, 0, 4, 0, 0, 0, 250, // cell 0: x 0, y 250
    ///     4, 0, 4, 3, 232, 0, 250, // cell 1: x 1,000, y 250
    /// ];
    /// let mut desk = Desk::open(&site)?;
    /// desk.close(200, 1, 0..=4)?;
    /// let light = desk.route(Trip { tug: 7, start: 0, tick: 0, goal: 1, dwell: 3 })?.light;
    ///
    /// // Step 0 is a wait, step 1 the motion, and there is no step 2.
    /// assert_eq!(desk.draw(&light, 0, 9)?, Picture::Standing(Place { x: 0.0, y: 250.0 }));
    /// assert_eq!(desk.draw(&light, 1, 1)?, Picture::Rolling(Place { x: 62.5, y: 250.0 }, 1.0 / 16.0));
    /// assert_eq!(desk.draw(&light, 1, 16)?, Picture::Rolling(Place { x: 1000.0, y: 250.0 }, 1.0));
    /// assert_eq!(desk.draw(&light, 2, 0)?, Picture::OffFloor);
    /// assert_eq!(desk.draw(&light, 0, 17), Err(Refusal::NoPicture));
    /// # Ok::<(), Refusal>(())
    /// ```
    pub fn draw(&self, light: &[u8], step: u16, frame: u8) -> Result<Picture, Refusal> {
        calls::draw(&self.site, light, step, frame).picture()
    }
}
