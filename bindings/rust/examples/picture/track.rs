//! Where a tug is while its light holds the floor, by `dispatch_draw`.

use crate::hall::Hall;
use dispatch::{Desk, Picture, Place, Refusal, Step, LAST_FRAME};

/// A place, and the moment at which the tug is there. Ticks are whole; frames lie between them.
pub struct Key {
    pub tick: f64,
    pub place: Place,
}

/// The way of a tug. Between two keys it goes straight and evenly.
pub struct Track {
    pub tug: u8,
    /// The first tick that it holds.
    pub first: u16,
    /// The last one: its arrival and its dwell.
    pub last: u16,
    /// By rising ticks, from the first to the last.
    pub keys: Vec<Key>,
}

impl Track {
    /// Draws every step of a posted light at every frame.
    pub fn of(desk: &Desk, hall: &Hall, light: &[u8]) -> Result<Track, Refusal> {
        let number = |at: usize| u16::from_be_bytes([light[at], light[at + 1]]);
        let (start, first, arrival, dwell) = (number(8), number(10), number(14), number(16));
        let mut track = Track { tug: light[7], first, last: arrival + dwell, keys: vec![] };
        let mut tick = f64::from(first);
        for (at, step) in (0..).zip(dispatch::steps(light)?) {
            let span = f64::from(match step {
                Step::Wait(ticks) => ticks,
                Step::Motion(motion) => hall.span(motion),
            });
            for frame in 0..=LAST_FRAME {
                let (place, share) = match desk.draw(light, at, frame)? {
                    Picture::Standing(place) => (place, f64::from(frame) / f64::from(LAST_FRAME)),
                    Picture::Rolling(place, share) => (place, f64::from(share)),
                    Picture::OffFloor => unreachable!("the light has step {at}"),
                };
                track.push(Key { tick: tick + share * span, place });
            }
            tick += span;
        }
        // While it unloads it stands where its last step ended. Without steps there is none to draw.
        let place = track.keys.last().map_or(hall.centre_of(start), |key| key.place);
        track.push(Key { tick, place });
        track.push(Key { tick: track.last.into(), place });
        Ok(track)
    }

    /// A tug that stays needs two keys, however long it does: the first and the last.
    fn push(&mut self, key: Key) {
        if let [.., before, last] = &mut self.keys[..] {
            if before.place == key.place && last.place == key.place {
                last.tick = key.tick;
                return;
            }
        }
        if !self.keys.last().is_some_and(|last| last.place == key.place && last.tick == key.tick) {
            self.keys.push(key);
        }
    }
}
