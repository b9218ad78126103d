//! The desk against independent programs on seeded calls: number, values and every lent byte.
//!
//! CALLS sets the number of calls (400,000), to which draws and calls on files with wrong centres are added, and SEED the seed (1):
//! `CALLS=5000000 SEED=7 cargo test --release --test agree`.

use dispatch_tests::desk::{self, Answer};
use dispatch_tests::gen::{self, Call, Caller, Rng, Size, CALLS};
use dispatch_tests::lent::{self, Area, Values};
use dispatch_tests::literal::{encode, fields, number, put, with_head, Centre, Light, Site, Step};
use dispatch_tests::literal::{CENTRE_LEN, LAST_FRAME, MARGIN_AT, MAX_DWELL, MAX_MARGIN};
use dispatch_tests::plain_board::PlainBoard;
use dispatch_tests::{literal_desk, plain, pull, run};
use std::collections::{BTreeMap, BTreeSet};
use std::io::Write;
use std::ops::RangeInclusive;
use std::time::Instant;

/// Bytes and numbers around each area that no call may touch.
const GUARD: usize = 32;

/// How often each thing that is counted must occur in a run that is long enough.
const OFTEN: usize = 20;

/// An area with a guard on both sides, which is compared too.
#[derive(Clone, PartialEq)]
struct Fenced<T>(Vec<T>);

impl<T> Fenced<T> {
    fn new(inner: &[T], mut draw: impl FnMut() -> T) -> Fenced<T>
    where
        T: Clone,
    {
        let mut all: Vec<T> = (0..GUARD).map(|_| draw()).collect();
        all.extend_from_slice(inner);
        all.extend((0..GUARD).map(|_| draw()));
        Fenced(all)
    }
}

impl<T> Area<T> for Fenced<T> {
    fn all(&self) -> &[T] {
        &self.0[GUARD..self.0.len() - GUARD]
    }

    fn all_mut(&mut self) -> &mut [T] {
        let end = self.0.len() - GUARD;
        &mut self.0[GUARD..end]
    }
}

/// What is lent to a call: the site file, the board, the light and the areas, each with its guards.
type Lent = lent::Lent<Fenced<u8>, Fenced<u16>, Fenced<u32>>;

/// The areas hold any bytes before the call.
fn lend(rng: &mut Rng, site: &[u8], board: &[u8], call: &Call) -> Lent {
    let values = Values::new(rng, site, board, call);
    Lent {
        site: Fenced::new(&values.site, || rng.draw() as u8),
        board: Fenced::new(&values.board, || rng.draw() as u8),
        light: Fenced::new(&values.light, || rng.draw() as u8),
        bytes: Fenced::new(&values.bytes, || rng.draw() as u8),
        numbers: Fenced::new(&values.numbers, || rng.draw() as u16),
        words: Fenced::new(&values.words, || rng.draw() as u32),
        drawn: values.drawn,
    }
}

struct Tally {
    seed: u64,
    calls: usize,
    /// Calls beyond the number that is asked for.
    more: usize,
    pictures: BTreeMap<Seen, usize>,
    pairs: BTreeMap<(usize, u8), usize>,
    docks: BTreeMap<Dock, usize>,
    margins: BTreeMap<(usize, Apart), usize>,
}

/// What can happen with the time at the dock. Each must occur often, or the run shows too little of it.
#[derive(Clone, Copy, PartialEq, Eq, PartialOrd, Ord, Debug)]
enum Dock {
    RouteGranted,
    /// Its high byte is not 0.
    RouteGrantedLong,
    /// The tug could be at its goal earlier, but not unload then.
    RouteLater,
    /// The plan leaves its goal and comes back.
    RouteReturns,
    /// The last tick at the dock is H.
    RouteUntilHorizon,
    /// Without the dwell the route is granted, and the dwell fits between arrival and H.
    RouteNone,
    /// Without the dwell the route is granted, and the dwell runs past H.
    RoutePastHorizon,
    /// The dwell is the limit itself, and the route is granted without it.
    RouteLimit,
    /// Only the dwell is too large.
    RouteTooLarge,
    /// The dwell is too large, and 11, 12 or 14 applies too.
    RouteTooLargeFirst,
    LightAccepted,
    LightAcceptedLong,
    /// With a dwell one tick shorter the light is accepted, and the dwell ends at H or before.
    LightHeld,
    /// With a dwell one tick shorter the light is accepted, and the dwell runs past H.
    LightPastHorizon,
    /// The dwell is the limit itself, and the light would be accepted without it.
    LightLimit,
    /// Only the dwell is too large.
    LightTooLarge,
    /// A light with the head of 13 bytes, which is right but for that.
    LightOldHead,
}

#[rustfmt::skip]
const DOCKS: [Dock; 17] = {
    use Dock::*;
    [
        RouteGranted, RouteGrantedLong, RouteLater, RouteReturns, RouteUntilHorizon, RouteNone, RoutePastHorizon, RouteLimit, RouteTooLarge,
        RouteTooLargeFirst, LightAccepted, LightAcceptedLong, LightHeld, LightPastHorizon, LightLimit, LightTooLarge, LightOldHead,
    ]
};

/// What a call shows of the time at the dock: its answer beside the plain program's for other dwells. A refused site file shows nothing.
fn docks(call: &Call, answer: &Answer, before: &Lent, left: &Lent) -> Vec<Dock> {
    let (file, board) = (before.site.all(), before.board.all());
    let seen = match call {
        &Call::Route { tug, start, tick, goal, dwell, out, work } if dwell > 0 => {
            let Ok(site) = Site::read(file) else { return vec![] };
            let none = plain::route(file, board, tug, start, tick, goal, 0, &mut vec![0; out], &mut vec![0; work]);
            let until = |arrival: u32| arrival as usize + dwell as usize;
            let (granted, lost) = (answer.number == 0, answer.number == 18 && none.number == 0);
            let steps = || Light::read(&left.bytes.all()[..answer.value as usize]).unwrap().steps;
            let returns = || steps().iter().any(|step| matches!(step, Step::Move(k) if site.motions[*k as usize].from == goal));
            vec![
                (Dock::RouteGranted, granted),
                (Dock::RouteGrantedLong, granted && dwell > 255),
                (Dock::RouteLater, granted && answer.arrival > none.arrival),
                (Dock::RouteReturns, granted && returns()),
                (Dock::RouteUntilHorizon, granted && until(answer.arrival) == site.h),
                (Dock::RouteNone, lost && until(none.arrival) <= site.h),
                (Dock::RoutePastHorizon, lost && until(none.arrival) > site.h),
                (Dock::RouteLimit, lost && dwell == MAX_DWELL),
                (Dock::RouteTooLarge, answer.number == 10 && none.number == 0),
                (Dock::RouteTooLargeFirst, answer.number == 10 && (11..=14).contains(&none.number)),
            ]
        }
        Call::Audit { light: bytes } | Call::Post { light: bytes } => match (Light::read(bytes), plain::Site::read(file)) {
            (Some(light), Ok(site)) if light.dwell > 0 => {
                let number = |dwell| plain::audit(file, board, &Light { dwell, ..light.clone() }.encode()).number;
                let past = light.arrival as usize + light.dwell as usize > site.h;
                vec![
                    (Dock::LightAccepted, answer.number == 0),
                    (Dock::LightAcceptedLong, answer.number == 0 && light.dwell > 255),
                    (Dock::LightHeld, answer.number == 17 && !past && number(light.dwell - 1) == 0),
                    (Dock::LightPastHorizon, answer.number == 17 && past && number(light.dwell - 1) == 0),
                    (Dock::LightLimit, answer.number == 17 && light.dwell == MAX_DWELL && number(0) == 0),
                    (Dock::LightTooLarge, answer.number == 10 && number(0) == 0),
                ]
            }
            (None, Ok(_)) if bytes.starts_with(&[16, 0, 13]) && answer.number == 8 => {
                let number = with_head(bytes, 15).map(|light| plain::audit(file, board, &light).number);
                vec![(Dock::LightOldHead, number == Some(0))]
            }
            _ => vec![],
        },
        _ => vec![],
    };
    seen.into_iter().filter(|dock| dock.1).map(|dock| dock.0).collect()
}

/// What can happen with the margin. Each must occur often on sites with each margin of `MARGINS`, or the run shows too little of it.
#[derive(Clone, Copy, PartialEq, Eq, PartialOrd, Ord, Debug)]
enum Apart {
    /// With margin 0 the route is granted.
    RouteRefused,
    /// With margin 0 the route arrives earlier.
    RouteLater,
    /// With a margin one tick smaller the route is granted, or arrives earlier.
    RouteByOneTick,
    /// With margin 0 the light is accepted.
    LightRefused,
    /// With a margin one tick smaller the light is accepted.
    LightByOneTick,
    /// With margin 0 the close is accepted.
    CloseRefused,
    /// With a margin one tick smaller the close is accepted.
    CloseByOneTick,
    /// A closure is accepted that has another one within the margin, or byte 255.
    CloseBesideClosure,
    CloseBesideUnknown,
    /// With margin 0 the cell has longer intervals, or more of them.
    IntervalsShorter,
    IntervalsFewer,
    /// A list of calls leaves two tugs, or a tug and a closure, in one cell at ticks that differ by one more than the margin.
    TugsNext,
    ClosureNext,
}

const APARTS: [Apart; 13] = {
    use Apart::*;
    [
        RouteRefused,
        RouteLater,
        RouteByOneTick,
        LightRefused,
        LightByOneTick,
        CloseRefused,
        CloseByOneTick,
        CloseBesideClosure,
        CloseBesideUnknown,
        IntervalsShorter,
        IntervalsFewer,
        TugsNext,
        ClosureNext,
    ]
};

/// Margins of which much must be seen.
const MARGINS: [usize; 3] = [1, 2, MAX_MARGIN];

/// What a call shows of the site's margin: its answer beside the plain program's for smaller ones. A refused site file shows nothing.
fn aparts(call: &Call, answer: &Answer, before: &Lent, left: &Lent) -> Vec<(usize, Apart)> {
    let (ticks, margin) = match Site::read(before.site.all()) {
        Ok(site) if site.margin > 0 && [0, 17, 18].contains(&answer.number) => (site.h + 1, site.margin),
        _ => return vec![],
    };
    let with_margin = |margin: usize| {
        let mut lent = before.clone();
        lent.site.all_mut()[MARGIN_AT] = margin as u8;
        let answer = run!(plain, call, &mut lent);
        (answer, lent.numbers)
    };
    let ((none, intervals), (less, _)) = (with_margin(0), with_margin(margin - 1));
    let (refused, by_one_tick) = (answer.number != 0 && none.number == 0, answer.number != 0 && less.number == 0);
    let earlier = |other: Answer| answer.number == 0 && other.arrival < answer.arrival;
    let seen = match call {
        Call::Route { .. } => {
            vec![(Apart::RouteRefused, refused), (Apart::RouteLater, earlier(none)), (Apart::RouteByOneTick, by_one_tick || earlier(less))]
        }
        Call::Audit { .. } | Call::Post { .. } => vec![(Apart::LightRefused, refused), (Apart::LightByOneTick, by_one_tick)],
        &Call::Close { cell, first, last, .. } => {
            let row = before.board.all()[4..].chunks(ticks).nth(cell as usize).unwrap();
            let near = &row[(first as usize).saturating_sub(margin)..(last as usize + margin + 1).min(row.len())];
            let beside = |bytes: RangeInclusive<u8>| answer.number == 0 && near.iter().any(|byte| bytes.contains(byte));
            vec![
                (Apart::CloseRefused, refused),
                (Apart::CloseByOneTick, by_one_tick),
                (Apart::CloseBesideClosure, beside(200..=254)),
                (Apart::CloseBesideUnknown, beside(255..=255)),
            ]
        }
        Call::Interval { .. } => vec![(Apart::IntervalsShorter, left.numbers != intervals), (Apart::IntervalsFewer, answer.value < none.value)],
        Call::Open | Call::Withdraw { .. } | Call::Draw { .. } => vec![],
    };
    seen.into_iter().filter(|apart| apart.1).map(|apart| (margin, apart.0)).collect()
}

/// What can happen with centres and pictures. Each must occur often, or the run shows too little of it.
#[derive(Clone, Copy, PartialEq, Eq, PartialOrd, Ord, Debug)]
enum Seen {
    /// A call of each kind that is accepted on a site with centres.
    OnCentres(usize),
    /// Rolling at a frame; between two places; with a coordinate that falls, and with both at one place.
    Frame(u8),
    Between,
    Falls,
    OnePlace,
    /// From the least coordinate to the greatest, or the other way.
    FromEndToEnd,
    /// Rolling or standing at a cell above 255, and at a step above 255.
    HighCell,
    HighStep,
    /// Standing at the start; behind a motion; behind one at the last step.
    WaitFirst,
    WaitBehind,
    WaitLast,
    /// Off the floor at the step behind the last; at a later one; of a light without steps.
    JustPast,
    FarPast,
    NoSteps,
    /// A motion or a wait of a light whose motions don't join, which shows where it is drawn: from the motion before it, by the motion behind it.
    MoveApart,
    WaitApart,
    /// A light that an audit refuses with 9 or 11, drawn.
    TugOutOfRange,
    GoalRolling,
    /// 20 for the frame alone, for the centres alone, for both; and past the last step.
    NoFrame,
    NoCentres,
    Neither,
    NoPicturePast,
    /// 8 or 10, where 20 applies too; and numbers 1 to 6 where the frame is too large.
    LayoutFirst,
    RangeFirst,
    SiteFirst(u8),
    /// Files that are refused with 4 for their centres alone: one less, one more, one for each state, and as many as C's low byte says.
    OneLess,
    OneMore,
    OfStates,
    LowByteOfC,
    /// A single one, and twice as many.
    Single,
    Twice,
    /// A centre of so many bytes, and one with tag 5.
    Length(usize),
    Tag5,
    /// A centre among the motions, before them, among the states or before these; a motion behind the centres.
    AmongMotions,
    BeforeMotions,
    BeforeStates,
    MotionBehind,
    /// 4, where 5 or 6 applies too.
    LayoutBefore5,
    LayoutBefore6,
}

/// What a run must show. What is wrong about a file's centres is counted for every call on it.
fn seen_pictures() -> Vec<Seen> {
    use Seen::*;
    let mut all: Vec<Seen> = (0..CALLS.len()).map(OnCentres).chain((0..=LAST_FRAME).map(Frame)).collect();
    all.extend([Between, Falls, OnePlace, FromEndToEnd, HighCell, HighStep, WaitFirst, WaitBehind, WaitLast, JustPast, FarPast, NoSteps]);
    all.extend([MoveApart, WaitApart, TugOutOfRange, GoalRolling, NoFrame, NoCentres, Neither, NoPicturePast, LayoutFirst, RangeFirst]);
    all.extend((1..=6).map(SiteFirst));
    all.extend([OneLess, OneMore, OfStates, LowByteOfC, Single, Twice, Length(0), Length(3), Length(5), Tag5]);
    all.extend([AmongMotions, BeforeMotions, BeforeStates, MotionBehind, LayoutBefore5, LayoutBefore6]);
    all
}

/// What a draw of an accepted site shows.
fn drawn(site: &Site, bytes: &[u8], step: usize, frame: u8, number: u8) -> Vec<(Seen, bool)> {
    let no_picture = frame > LAST_FRAME || site.centres.is_empty();
    let Some(light) = Light::read(bytes) else { return vec![(Seen::LayoutFirst, number == 8 && no_picture)] };
    let past = step >= light.steps.len();
    if number != 0 {
        return vec![
            (Seen::RangeFirst, number == 10 && no_picture),
            (Seen::NoFrame, number == 20 && frame > LAST_FRAME && !site.centres.is_empty()),
            (Seen::NoCentres, number == 20 && frame <= LAST_FRAME),
            (Seen::Neither, number == 20 && frame > LAST_FRAME && site.centres.is_empty()),
            (Seen::NoPicturePast, number == 20 && past),
        ];
    }
    let steps = &light.steps;
    let mut seen = vec![
        (Seen::JustPast, step == steps.len() && !steps.is_empty()),
        (Seen::FarPast, step > steps.len()),
        (Seen::NoSteps, steps.is_empty()),
        (Seen::TugOutOfRange, !past && !(1..=199).contains(&light.tug)),
        (Seen::GoalRolling, !past && !site.standing(light.goal as usize)),
    ];
    let motion = |step: Option<&Step>| if let Some(&Step::Move(k)) = step { Some(&site.motions[k as usize]) } else { None };
    let centre = |state: u16| site.centres[site.cell(state as usize)];
    let (before, next) = (steps[..step.min(steps.len())].iter().rev().find_map(|step| motion(Some(step))), motion(steps.get(step + 1)));
    let stood = before.map_or(light.start, |before| before.to);
    let high = |state: u16| site.cell(state as usize) > 255;
    match steps.get(step) {
        None => {}
        Some(Step::Wait(_)) => seen.extend([
            (Seen::WaitFirst, step == 0),
            (Seen::WaitBehind, step > 0),
            (Seen::WaitLast, step > 0 && step + 1 == steps.len()),
            (Seen::WaitApart, step > 0 && next.is_some_and(|next| centre(next.from) != centre(stood))),
            (Seen::HighCell, high(stood)),
            (Seen::HighStep, step > 255),
        ]),
        Some(&Step::Move(k)) => {
            let motion = &site.motions[k as usize];
            let (old, new) = (centre(motion.from), centre(motion.to));
            let ends = |Centre { x, y }, x_too, y_too| x == x_too || y == y_too;
            seen.extend([
                (Seen::Frame(frame), true),
                (Seen::Between, old != new && (1..LAST_FRAME).contains(&frame)),
                (Seen::Falls, (new.x < old.x || new.y < old.y) && (1..LAST_FRAME).contains(&frame)),
                (Seen::OnePlace, old == new),
                (Seen::FromEndToEnd, (ends(old, 0, 0) && ends(new, 65_535, 65_535)) || (ends(old, 65_535, 65_535) && ends(new, 0, 0))),
                (Seen::MoveApart, centre(motion.from) != centre(stood)),
                (Seen::HighCell, high(motion.from) && high(motion.to)),
                (Seen::HighStep, step > 255),
            ]);
        }
    }
    seen
}

/// What a file shows that is refused with 4, and is accepted without its centres, or then refused with 5 or 6.
fn wrong_centres(file: &[u8]) -> Vec<(Seen, bool)> {
    let all = fields(file).unwrap();
    let (c, s) = (number(&all[0].1[2..4]), number(&all[0].1[4..6]));
    let mut without = Vec::new();
    all.iter().filter(|field| field.0 != 4 && field.0 != 5).for_each(|(tag, value)| put(&mut without, *tag, value));
    let lengths = |wanted: usize| all.iter().any(|&(tag, value)| tag == 4 && value.len() == wanted);
    // Whether some field of the one tag stands before one of the other.
    let before = |tag: u8, other: u8| all.iter().position(|field| field.0 == tag) < all.iter().rposition(|field| field.0 == other);
    let there = |tag: u8| all.iter().any(|field| field.0 == tag);
    match Site::read(&without).err() {
        None => {
            let count = all.iter().filter(|field| field.0 == 4).count();
            let plain = all.iter().all(|&(tag, value)| tag < 4 || (tag == 4 && value.len() == CENTRE_LEN)) && !before(4, 3) && !before(4, 2);
            let one_kind = all.iter().all(|&(tag, value)| tag < 4 || value.len() == CENTRE_LEN);
            let first = all.iter().rposition(|field| field.0 == 2).unwrap() + 1;
            let among = all[first..].iter().skip_while(|field| field.0 == 3).any(|field| field.0 == 3) && all[first].0 == 3;
            vec![
                (Seen::OneLess, plain && count + 1 == c),
                (Seen::OneMore, plain && count == c + 1),
                (Seen::OfStates, plain && count == s),
                (Seen::LowByteOfC, plain && c > 255 && count == c % 256),
                (Seen::Single, plain && count == 1),
                (Seen::Twice, plain && count == 2 * c),
                (Seen::Length(0), lengths(0)),
                (Seen::Length(3), lengths(3)),
                (Seen::Length(5), lengths(5)),
                (Seen::Tag5, one_kind && there(5) && !before(4, 3)),
                (Seen::AmongMotions, one_kind && count == c && !before(4, 2) && among),
                (Seen::BeforeMotions, one_kind && count == c && !before(4, 2) && all[first].0 == 4 && there(3)),
                (Seen::BeforeStates, one_kind && count == c && before(4, 2)),
                (Seen::MotionBehind, one_kind && count == c && !before(4, 2) && all.last().unwrap().0 == 3),
            ]
        }
        Some(number) => vec![(Seen::LayoutBefore5, number == 5 && there(4)), (Seen::LayoutBefore6, number == 6 && there(4))],
    }
}

/// What a call shows of centres.
fn pictures(call: &Call, answer: &Answer, before: &Lent) -> Vec<Seen> {
    let file = before.site.all();
    let seen = match (Site::read(file), call) {
        (Ok(site), Call::Draw { light, step, frame }) => {
            let mut seen = drawn(&site, light, *step as usize, *frame, answer.number);
            seen.push((Seen::OnCentres(call.kind()), answer.number == 0));
            seen
        }
        (Ok(site), _) => vec![(Seen::OnCentres(call.kind()), answer.number == 0 && !site.centres.is_empty())],
        (Err(number), _) => {
            let mut seen = if number == 4 { wrong_centres(file) } else { vec![] };
            seen.push((Seen::SiteFirst(number), matches!(call, Call::Draw { frame, .. } if *frame > LAST_FRAME)));
            seen
        }
    };
    seen.into_iter().filter(|seen| seen.1).map(|seen| seen.0).collect()
}

/// In each cell, the ticks of a tug and of any other holder differ by more than the margin. Gives those that differ by just one tick more.
fn kept_apart(site: &Site, board: &[u8]) -> BTreeSet<Apart> {
    let mut next = BTreeSet::new();
    for row in board[4..].chunks(site.h + 1) {
        let held: Vec<(usize, u8)> = row.iter().copied().enumerate().filter(|pair| pair.1 != 0).collect();
        for (i, &(tick, holder)) in held.iter().enumerate() {
            let later = held[i + 1..].iter().take_while(|other| other.0 - tick <= site.margin + 1);
            for &(other_tick, other) in later.filter(|other| other.1 != holder && holder.min(other.1) < 200) {
                assert!(other_tick - tick > site.margin, "{holder} at {tick} and {other} at {other_tick} in one cell, margin {}", site.margin);
                next.insert(if holder.max(other) < 200 { Apart::TugsNext } else { Apart::ClosureNext });
            }
        }
    }
    next
}

impl Tally {
    /// Runs one call with the desk and with the plain program, and compares everything. Gives what was left.
    fn compare(&mut self, rng: &mut Rng, site: &[u8], board: &[u8], call: &Call) -> (Answer, Lent) {
        let before = lend(rng, site, board, call);
        let (mut left, mut wanted) = (before.clone(), before.clone());
        let answer = run!(desk, call, &mut left);
        let expected = run!(plain, call, &mut wanted);
        let place = || {
            format!(
                "seed {}, call {} and {} more: {} on a site file of {} bytes, a board of {}\n{call:?}",
                self.seed,
                self.calls,
                self.more,
                CALLS[call.kind()],
                site.len(),
                board.len()
            )
        };
        assert!(answer == expected, "{}\nthe desk answers {answer:?}, the plain program {expected:?}", place());
        assert!(left.site == before.site && left.light == before.light, "{}\nthe site file or light changed", place());
        assert!(left.board == wanted.board, "{}\nthe boards differ", place());
        assert!(left.bytes == wanted.bytes, "{}\nthe output bytes differ", place());
        assert!(left.numbers == wanted.numbers, "{}\nthe interval numbers differ", place());
        assert!(left.words == wanted.words, "{}\nthe working words differ", place());
        let floats = |lent: &Lent| lent.drawn.map(f32::from_bits);
        assert!(left.drawn == wanted.drawn, "{}\nthe desk draws {:?}, the plain program {:?}", place(), floats(&left), floats(&wanted));
        if let Call::Draw { light, step, frame } = call {
            let exact = literal_desk::draw(site, light, *step, *frame);
            assert!(exact.answer() == answer && exact.bits() == left.drawn, "{}\nthe literal reading gives {exact:?}", place());
        }
        if let Call::Route { tug, start, tick, goal, dwell, .. } = *call {
            let mut simple = before.clone();
            let (bytes, words) = (simple.bytes.all_mut(), simple.words.all_mut());
            let said = pull::route(site, board, tug, start, tick, goal, dwell, bytes, words);
            assert!(said == expected && simple == wanted, "{}\nthe simple program answers {said:?}, or leaves other areas", place());
        }
        self.calls += 1;
        *self.pairs.entry((call.kind(), answer.number)).or_default() += 1;
        for seen in pictures(call, &answer, &before) {
            *self.pictures.entry(seen).or_default() += 1;
        }
        for dock in docks(call, &answer, &before, &left) {
            *self.docks.entry(dock).or_default() += 1;
        }
        for apart in aparts(call, &answer, &before, &left) {
            *self.margins.entry(apart).or_default() += 1;
        }
        (answer, left)
    }

    /// The same for a call beyond the number that is asked for.
    fn compare_more(&mut self, rng: &mut Rng, site: &[u8], board: &[u8], call: &Call) -> Answer {
        let (answer, _) = self.compare(rng, site, board, call);
        self.calls -= 1;
        self.more += 1;
        answer
    }

    /// Calls on boards with any bytes, some of a wrong length.
    fn any_board(&mut self, rng: &mut Rng, size: Size) {
        let site = gen::site(rng, size);
        let file = encode(&site);
        for _ in 0..4 {
            let mut board = gen::board(rng, &site);
            if rng.percent(5) {
                let n = rng.pick(&[0, 3, 4, board.len() - 1, board.len() + 1, 2 * board.len()]);
                board.resize(n, 0);
            }
            let caller = Caller { site: &site, file: &file, lights: vec![] };
            for _ in 0..8 {
                let call = caller.any(rng, &board);
                let (_, left) = self.compare(rng, &file, &board, &call);
                // A changed board serves further calls, but an opened one is dull.
                if !matches!(call, Call::Open) {
                    board = left.board.all().to_vec();
                }
            }
            for _ in 0..3 {
                let draw = caller.draw(rng, &board);
                self.compare_more(rng, &file, &board, &draw);
            }
        }
    }

    /// Damaged files, with one fault or several, through every call.
    fn any_file(&mut self, rng: &mut Rng, size: Size) {
        let site = gen::site(rng, size);
        let board = gen::board(rng, &site);
        let good = encode(&site);
        let caller = Caller { site: &site, file: &good, lights: vec![] };
        for _ in 0..6 {
            let file = match rng.below(8) {
                0 => {
                    let mut file = good.clone();
                    gen::scratch(rng, &mut file);
                    file
                }
                1 => {
                    let n = rng.below(300);
                    rng.bytes(n)
                }
                _ => {
                    let mut faults = vec![];
                    while faults.is_empty() || rng.percent(25) {
                        // A file above the limit is costly to make, so it is rarer.
                        faults.push(if rng.percent(10) { 1 } else { rng.range(2, 6) as u8 });
                    }
                    gen::damaged(rng, &site, &faults)
                }
            };
            for _ in 0..3 {
                let call = caller.any(rng, &board);
                let cut = if rng.percent(10) { 1 } else { 0 };
                let (answer, _) = self.compare(rng, &file, &board[cut..], &call);
                self.read_as(&file, answer);
            }
            let draw = caller.draw(rng, &board);
            let answer = self.compare_more(rng, &file, &board, &draw);
            self.read_as(&file, answer);
        }
        self.any_centres(rng, &caller, &board);
    }

    /// Files with wrong centres, which may have other faults too.
    fn any_centres(&mut self, rng: &mut Rng, caller: &Caller, board: &[u8]) {
        for _ in 0..3 {
            let mut faults = vec![4];
            while rng.percent(40) {
                faults.push(rng.pick(&[5, 5, 6, 6, 3, 2]));
            }
            let file = gen::damaged_centres(rng, caller.site, &faults);
            for call in [caller.any(rng, board), caller.draw(rng, board)] {
                let answer = self.compare_more(rng, &file, board, &call);
                self.read_as(&file, answer);
            }
        }
    }

    /// The file as the literal reading has it, beside the two programs.
    fn read_as(&self, file: &[u8], answer: Answer) {
        match Site::read(file).err() {
            Some(number) => assert_eq!(answer, Answer::plain(number), "seed {}, call {}", self.seed, self.calls),
            None => assert!(answer.number == 0 || answer.number >= 7, "seed {}, call {}", self.seed, self.calls),
        }
    }

    /// A list of calls from an opened board, with the plain board beside it.
    fn list(&mut self, rng: &mut Rng, size: Size) {
        let site = gen::site(rng, size);
        let file = encode(&site);
        let garbage = rng.bytes(site.board_len());
        let (_, left) = self.compare(rng, &file, &garbage, &Call::Open);
        let mut board = left.board.all().to_vec();
        let mut model = PlainBoard::new(site.clone());
        let mut caller = Caller { site: &site, file: &file, lights: vec![] };
        for _ in 0..rng.pick(&[0, 1, 5, 20, 40, 80]) {
            let call = caller.listed(rng, &board);
            let (answer, left) = self.compare(rng, &file, &board, &call);
            board = left.board.all().to_vec();
            let wanted = match call {
                Call::Route { tug, start, tick, goal, dwell, out, work } => {
                    let (wanted, light) = model.route(tug, start, tick, goal, dwell, out, work);
                    if wanted.number == 0 {
                        assert_eq!(left.bytes.all()[..light.len()], light, "seed {}, call {}: the light of the plain board", self.seed, self.calls);
                        caller.lights.push(light);
                    }
                    wanted
                }
                Call::Audit { light } => model.audit(&light),
                Call::Post { light } => model.post(&light),
                Call::Close { holder, cell, first, last } => model.close(holder, cell, first, last),
                Call::Withdraw { holder } => model.withdraw(holder),
                Call::Open | Call::Interval { .. } | Call::Draw { .. } => answer,
            };
            assert_eq!(answer, wanted, "seed {}, call {}: the answer of the plain board", self.seed, self.calls);
            assert!(board == model.bytes(), "seed {}, call {}: the board differs from the plain board", self.seed, self.calls);
            for apart in kept_apart(&site, &board) {
                *self.margins.entry((site.margin, apart)).or_default() += 1;
            }
            if rng.percent(25) {
                let draw = caller.draw(rng, &board);
                self.compare_more(rng, &file, &board, &draw);
            }
        }
    }
}

fn setting(name: &str, default: u64) -> u64 {
    std::env::var(name).map_or(default, |text| text.parse().unwrap_or_else(|_| panic!("{name} is no number")))
}

#[test]
fn desk_and_plain_program_agree() {
    let (calls, seed) = (setting("CALLS", 400_000) as usize, setting("SEED", 1));
    // Written to the stream itself, so that it shows for passed tests too.
    let mut log = std::io::stderr();
    writeln!(log, "agree: seed {seed}, {calls} calls").unwrap();
    let began = Instant::now();
    let mut rng = Rng::new(seed);
    let (pairs, docks, margins, pictures) = (BTreeMap::new(), BTreeMap::new(), BTreeMap::new(), BTreeMap::new());
    let mut tally = Tally { seed, calls: 0, more: 0, pictures, pairs, docks, margins };
    let mut round = 0;
    while tally.calls < calls {
        round += 1;
        let size = match rng.below(100) {
            0..=16 => Size::Tiny,
            17..=56 => Size::Row,
            57..=77 => Size::Small,
            78..=90 => Size::Long,
            91..=94 => Size::Hall,
            _ => Size::Middle,
        };
        match round % 8 {
            0..=3 => tally.list(&mut rng, size),
            4..=6 => tally.any_board(&mut rng, size),
            _ => tally.any_file(&mut rng, size),
        }
        // Sites at the limits, now and then: each call on them costs as much as hundreds of others.
        if round % 400 == 0 {
            tally.any_board(&mut rng, Size::Large);
        }
        if round % 2_000 == 0 {
            tally.any_file(&mut rng, Size::Large);
        }
        if round % 200 == 0 {
            tally.any_board(&mut rng, Size::Many);
        }
        if round % 20 == 0 {
            let site = gen::site(&mut rng, Size::Hall);
            let (file, board) = (encode(&site), gen::board(&mut rng, &site));
            tally.any_centres(&mut rng, &Caller { site: &site, file: &file, lights: vec![] }, &board);
        }
        if round % 1_000 == 0 {
            tally.any_file(&mut rng, Size::Many);
        }
    }
    writeln!(log, "agree: {} calls and {} more agree in {:.1} s", tally.calls, tally.more, began.elapsed().as_secs_f64()).unwrap();
    for (kind, name) in CALLS.iter().enumerate() {
        let counts: Vec<String> = tally.pairs.iter().filter(|(pair, _)| pair.0 == kind).map(|(pair, n)| format!("{}:{n}", pair.1)).collect();
        writeln!(log, "agree: {name:8} {}", counts.join(" ")).unwrap();
    }
    let counts: Vec<String> = tally.docks.iter().map(|(dock, n)| format!("{dock:?}:{n}")).collect();
    writeln!(log, "agree: dwell    {}", counts.join(" ")).unwrap();
    for margin in MARGINS {
        let counts: Vec<String> = APARTS.iter().map(|apart| format!("{apart:?}:{}", tally.margins.get(&(margin, *apart)).unwrap_or(&0))).collect();
        writeln!(log, "agree: margin {margin:2} {}", counts.join(" ")).unwrap();
    }
    let counts: Vec<String> = seen_pictures().iter().map(|seen| format!("{seen:?}:{}", tally.pictures.get(seen).unwrap_or(&0))).collect();
    writeln!(log, "agree: pictures {}", counts.join(" ")).unwrap();
    for pair in tally.pairs.keys() {
        assert!(gen::possible().contains(pair), "{} answers {}, which docs/FORMATS.md does not give it", CALLS[pair.0], pair.1);
    }
    // A short run may miss the rarest numbers.
    if calls >= 100_000 {
        for pair in gen::possible() {
            let times = tally.pairs.get(&pair).copied().unwrap_or(0);
            assert!(times >= OFTEN, "{} answers {} only {times} times, so the run shows too little", CALLS[pair.0], pair.1);
        }
        for dock in DOCKS {
            let times = tally.docks.get(&dock).copied().unwrap_or(0);
            assert!(times >= OFTEN, "{dock:?} occurs only {times} times, so the run shows too little");
        }
        for (margin, apart) in MARGINS.into_iter().flat_map(|margin| APARTS.map(|apart| (margin, apart))) {
            let times = tally.margins.get(&(margin, apart)).copied().unwrap_or(0);
            assert!(times >= OFTEN, "{apart:?} occurs only {times} times with margin {margin}, so the run shows too little");
        }
        for seen in seen_pictures() {
            let times = tally.pictures.get(&seen).copied().unwrap_or(0);
            assert!(times >= OFTEN, "{seen:?} occurs only {times} times, so the run shows too little");
        }
    }
}
