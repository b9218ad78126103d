//! A script, replayed by the calls. docs/FORMATS.md has its fields.

use dispatch::{Desk, Trip};
use std::collections::BTreeMap;
use std::ops::RangeInclusive;

/// What stands on the board at the script's end.
#[derive(Default)]
pub struct Shift {
    /// The light of each tug.
    pub lights: BTreeMap<u8, Vec<u8>>,
    /// Each closure: its cell, and its ticks.
    pub closures: BTreeMap<u8, (u16, RangeInclusive<u16>)>,
    /// The field, counted from 1, at which the day program prints 99 and ends; nothing if it reads them all.
    pub ended_at: Option<usize>,
}

/// Makes the call of each field. A call that is refused changes nothing.
pub fn replay(desk: &mut Desk, script: &[u8]) -> Shift {
    let mut shift = Shift::default();
    // What is posted if no route was granted yet.
    let mut granted = Vec::new();
    let pair = |high, low| u16::from_be_bytes([high, low]);
    let mut rest = script;
    for field in 1.. {
        rest = match *rest {
            [] => break,
            [32, 0, 7, closure, c1, c0, f1, f0, l1, l0, ref next @ ..] => {
                let (cell, ticks) = (pair(c1, c0), pair(f1, f0)..=pair(l1, l0));
                if desk.close(closure, cell, ticks.clone()).is_ok() {
                    shift.closures.insert(closure, (cell, ticks));
                }
                next
            }
            [33, 0, 1, holder, ref next @ ..] => {
                if desk.withdraw(holder).is_ok() {
                    shift.lights.remove(&holder);
                    shift.closures.remove(&holder);
                }
                next
            }
            [34, 0, 9, tug, s1, s0, t1, t0, g1, g0, d1, d0, ref next @ ..] => {
                let trip = Trip { tug, start: pair(s1, s0), tick: pair(t1, t0), goal: pair(g1, g0), dwell: pair(d1, d0) };
                if let Ok(route) = desk.route(trip) {
                    granted = route.light;
                }
                next
            }
            [35, 0, 0, ref next @ ..] => {
                if desk.post(&granted).is_ok() {
                    shift.lights.insert(granted[7], granted.clone());
                }
                next
            }
            _ => {
                shift.ended_at = Some(field);
                break;
            }
        }
    }
    shift
}
