//! What the picture takes from the site file itself.

use dispatch::Place;

/// The hall of a site file that the desk accepts and that has centres.
pub struct Hall {
    /// The last tick.
    pub horizon: u16,
    /// The centre of each cell.
    pub centres: Vec<Place>,
    /// The cell of each state.
    cells: Vec<u16>,
    /// The span of each motion.
    spans: Vec<u8>,
}

impl Hall {
    /// # Panics
    ///
    /// If the desk would refuse the file.
    pub fn read(site: &[u8]) -> Hall {
        let mut hall = Hall { horizon: 0, centres: vec![], cells: vec![], spans: vec![] };
        let pair = |high, low| u16::from_be_bytes([high, low]);
        let mut rest = site;
        while let &[tag, high, low, ref behind @ ..] = rest {
            let (value, next) = behind.split_at(pair(high, low).into());
            match (tag, value) {
                (1, &[high, low, ..]) => hall.horizon = pair(high, low),
                (2, &[high, low, _]) => hall.cells.push(pair(high, low)),
                (3, &[_, _, _, _, span, ..]) => hall.spans.push(span),
                (4, &[x1, x0, y1, y0]) => hall.centres.push(Place { x: pair(x1, x0).into(), y: pair(y1, y0).into() }),
                _ => panic!("an accepted site has no field of tag {tag} and {} bytes", value.len()),
            }
            rest = next;
        }
        hall
    }

    /// The centre of a state's cell.
    pub fn centre_of(&self, state: u16) -> Place {
        self.centres[usize::from(self.cells[usize::from(state)])]
    }

    /// The span of a motion, in ticks.
    pub fn span(&self, motion: u16) -> u16 {
        self.spans[usize::from(motion)].into()
    }
}
