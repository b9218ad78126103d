//! Travel times from distances: the fewest ticks from rest to rest that cover at least a distance.
//!
//! A run of n ticks has speeds at ticks 0 to n, in decimetres a tick, first and last 0, neighbours differing by at most 1, none above
//! a limit, which is 15; its distance is their sum. Other limits are there because small ones are felt by runs that are soon tried.

use crate::desk::Answer;

/// The greatest distance that is answered, in decimetres.
pub const LAST: u32 = 511;
pub const LIMIT: u32 = 15;

/// The speeds as the rule has them, one at each tick.
pub fn is_run(limit: u32, speeds: &[u32]) -> bool {
    speeds.first() == Some(&0)
        && speeds.last() == Some(&0)
        && speeds.windows(2).all(|pair| pair[0].abs_diff(pair[1]) <= 1)
        && speeds.iter().all(|&speed| speed <= limit)
}

/// For each number of ticks, from 0 on, the greatest distance of a run of so many.
///
/// Carried from tick to tick: for each speed the greatest sum of speeds that start at 0, keep the rule and end with this one; none
/// where no speeds do.
fn greatest_of_each(limit: u32) -> impl Iterator<Item = u32> {
    let speeds = limit as usize + 1;
    let mut sums: Vec<Option<u32>> = vec![None; speeds];
    sums[0] = Some(0);
    std::iter::successors(Some(sums), move |before| {
        let after = (0..speeds).map(|speed| {
            let neighbours = &before[speed.saturating_sub(1)..(speed + 2).min(speeds)];
            neighbours.iter().flatten().max().map(|sum| sum + speed as u32)
        });
        Some(after.collect())
    })
    .map(|sums| sums[0].expect("a run may stand still"))
}

/// The greatest distance of a run of n ticks.
pub fn greatest(limit: u32, n: usize) -> u32 {
    greatest_of_each(limit).nth(n).unwrap()
}

/// The greatest distance of a run of n ticks, by trying every run: three choices a tick, so for few ticks only.
pub fn tried(limit: u32, n: usize) -> u32 {
    fn try_from(limit: u32, n: usize, speeds: &mut Vec<u32>, best: &mut Option<u32>) {
        if speeds.len() == n + 1 {
            if is_run(limit, speeds) {
                *best = (*best).max(Some(speeds.iter().sum()));
            }
            return;
        }
        let speed = speeds[speeds.len() - 1];
        for next in speed.saturating_sub(1)..=speed + 1 {
            speeds.push(next);
            try_from(limit, n, speeds, best);
            speeds.pop();
        }
    }
    let mut best = None;
    try_from(limit, n, &mut vec![0], &mut best);
    best.expect("a run may stand still")
}

/// Entry d of the table, for a distance that has one.
pub fn fewest(distance: u32) -> Option<u32> {
    let ticks = || greatest_of_each(LIMIT).position(|greatest| greatest >= distance).unwrap();
    (distance <= LAST).then(|| ticks() as u32)
}

/// What the call answers.
pub fn answer(distance: u32) -> Answer {
    match fewest(distance) {
        Some(ticks) => Answer { number: 0, value: ticks, arrival: 0 },
        None => Answer::plain(19),
    }
}
