//! What a light says.

use crate::Refusal;

/// A step of a plan.
#[derive(Clone, Copy, PartialEq, Eq, Hash, Debug)]
pub enum Step {
    /// The tug waits so many ticks.
    Wait(u16),
    /// It makes the motion of this number.
    Motion(u16),
}

/// A head of 15 bytes and a step of 2, each with its tag and length.
const HEAD: usize = 18;
const STEP: usize = 5;

/// The most bytes of a light.
const MOST: usize = 5_018;

/// The steps of a light, in order, or [`Refusal::LightLayout`] for bytes that are no light. Whether the plan is allowed is for
/// [`Desk::audit`](crate::Desk::audit) to say.
///
/// ```
/// use dispatch::{steps, Desk, Refusal, Step, Trip};
///
/// // Two cells, and a motion from the first to the second in 2 ticks.
/// let site = [1, 0, 7, 0, 20, 0, 2, 0, 2, 0, 2, 0, 3, 0, 0, 0, 2, 0, 3, 0, 1, 0, 3, 0, 13, 0, 0, 0, 1, 2, 0, 0, 0, 1, 0, 1, 1, 2];
/// let mut desk = Desk::open(&site)?;
/// desk.close(200, 1, 0..=4)?;
/// let granted = desk.route(Trip { tug: 7, start: 0, tick: 0, goal: 1, dwell: 3 })?;
/// assert_eq!(steps(&granted.light)?, [Step::Wait(4), Step::Motion(0)]);
/// assert_eq!(steps(&granted.light[1..]), Err(Refusal::LightLayout));
/// # Ok::<(), Refusal>(())
/// ```
pub fn steps(light: &[u8]) -> Result<Vec<Step>, Refusal> {
    let (head, fields) = light.split_at_checked(HEAD).ok_or(Refusal::LightLayout)?;
    if light.len() > MOST || !head.starts_with(&[16, 0, 15]) {
        return Err(Refusal::LightLayout);
    }
    let all: Result<Vec<Step>, Refusal> = fields.chunks(STEP).map(step).collect();
    let all = all?;
    let two_waits = all.windows(2).any(|pair| matches!(pair, [Step::Wait(_), Step::Wait(_)]));
    if two_waits {
        Err(Refusal::LightLayout)
    } else {
        Ok(all)
    }
}

fn step(field: &[u8]) -> Result<Step, Refusal> {
    match *field {
        [17, 0, 2, 0, 0] => Err(Refusal::LightLayout),
        [17, 0, 2, high, low] => Ok(Step::Wait(u16::from_be_bytes([high, low]))),
        [18, 0, 2, high, low] => Ok(Step::Motion(u16::from_be_bytes([high, low]))),
        _ => Err(Refusal::LightLayout),
    }
}
