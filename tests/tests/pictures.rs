//! Request 7, the moving picture of a shift: its cases by numbers written out here; then every frame of seeded lights against integers, in sixteenths of
//! a millimetre; then the order of draw's checks, every wrong layout of centres, sites at the limits, and that centres change no other call.

use dispatch_tests::desk::{self, Answer, Drawn, OFF_FLOOR, ROLLING, STANDING};
use dispatch_tests::gen::{self, Call, Caller, Rng, Size};
use dispatch_tests::lent::Values;
use dispatch_tests::literal::{encode, encode_fields, put, Centre, Light, Motion, Site, State, Step, Sweep, MAX_DWELL};
use dispatch_tests::{four, literal_desk, plain, run};

const W: fn(u16) -> Step = Step::Wait;
const M: fn(u16) -> Step = Step::Move;
const FRAMES: std::ops::RangeInclusive<u8> = 0..=16;

/// What the desk draws, which the two programs must draw too.
fn draw(file: &[u8], light: &[u8], step: u16, frame: u8) -> Drawn {
    let drawn = desk::draw(file, light, step, frame);
    for (program, other) in [("plain", plain::draw(file, light, step, frame)), ("literal", literal_desk::draw(file, light, step, frame))] {
        assert_eq!(drawn, other, "step {step}, frame {frame}: the desk's picture and the {program} program's");
    }
    drawn
}

fn rolling(x: f32, y: f32, share: f32) -> Drawn {
    Drawn { number: 0, kind: ROLLING, x, y, share }
}

fn standing(x: f32, y: f32) -> Drawn {
    Drawn { number: 0, kind: STANDING, x, y, share: 0.0 }
}

fn off_floor() -> Drawn {
    Drawn { number: 0, kind: OFF_FLOOR, x: 0.0, y: 0.0, share: 0.0 }
}

fn refused(number: u8) -> Drawn {
    Drawn { number, kind: 0, x: 0.0, y: 0.0, share: 0.0 }
}

/// A light of tug 7 from state 0 at tick 0 to state 4, with steps.
fn light(steps: &[Step]) -> Light {
    Light { edition: 0, tug: 7, start: 0, tick: 0, goal: 4, arrival: 5, dwell: 0, steps: steps.to_vec() }
}

/// A picture on the worked hall with its centres: (0, 0), (1000, 0), (2000, 500) and (3000, 500).
fn four_draw(light: &Light, step: u16, frame: u8) -> Drawn {
    draw(&four::drawn_bytes(), &light.encode(), step, frame)
}

const A: [Step; 3] = [Step::Move(0), Step::Move(1), Step::Move(2)];

#[test]
fn file_has_144_bytes() {
    let centres = "04 0004 0000 0000, 04 0004 03E8 0000, 04 0004 07D0 01F4, 04 0004 0BB8 01F4";
    assert_eq!(four::drawn_bytes(), [four::bytes(), four::hex(centres)].concat());
    assert_eq!((four::bytes().len(), four::drawn_bytes().len()), (116, 144));
    assert_eq!(desk::open(&four::drawn_bytes(), &mut [9; 56]), Answer::plain(0));
}

#[test]
fn a_rolls_from_centre_to_centre() {
    let a = light(&A);
    assert_eq!(four_draw(&a, 0, 0), rolling(0.0, 0.0, 0.0));
    assert_eq!(four_draw(&a, 0, 1), rolling(62.5, 0.0, 0.0625));
    assert_eq!(four_draw(&a, 0, 16), rolling(1000.0, 0.0, 1.0));
    assert_eq!(four_draw(&a, 1, 3), rolling(1187.5, 93.75, 0.1875));
    assert_eq!(four_draw(&a, 1, 8), rolling(1500.0, 250.0, 0.5));
    assert_eq!(four_draw(&a, 2, 0), rolling(2000.0, 500.0, 0.0));
    assert_eq!(four_draw(&a, 2, 15), rolling(2937.5, 500.0, 0.9375));
    assert_eq!(four_draw(&a, 2, 16), rolling(3000.0, 500.0, 1.0));
    // Frames 0 and 16 sit on the centres of the from and to cells, so that a motion begins where the one before it ends.
    for step in 0..2 {
        let (end, begin) = (four_draw(&a, step, 16), four_draw(&a, step + 1, 0));
        assert_eq!((end.x, end.y), (begin.x, begin.y), "steps {step} and {}", step + 1);
    }
}

#[test]
fn past_the_last_step() {
    let a = light(&A);
    for frame in FRAMES {
        for step in [3, 4, 255, 256, 258, 65_535] {
            assert_eq!(four_draw(&a, step, frame), off_floor(), "step {step}, frame {frame}");
        }
        // The dwell has no step.
        assert_eq!(four_draw(&Light { dwell: 7, ..a.clone() }, 3, frame), off_floor());
        assert_eq!(four_draw(&Light { start: 4, steps: vec![], ..a.clone() }, 0, frame), off_floor());
    }
    for step in [0, 2, 3, 65_535] {
        for frame in [17, 18, 32, 128, 255] {
            assert_eq!(four_draw(&a, step, frame), refused(20), "step {step}, frame {frame}");
        }
    }
}

#[test]
fn b_waits_at_the_start() {
    let b = Light { arrival: 10, ..light(&[W(5), M(0), M(1), M(2)]) };
    for frame in FRAMES {
        assert_eq!(four_draw(&b, 0, frame), standing(0.0, 0.0), "frame {frame}");
    }
    assert_eq!(four_draw(&b, 1, 1), rolling(62.5, 0.0, 0.0625));
    assert_eq!(four_draw(&b, 3, 16), rolling(3000.0, 500.0, 1.0));
    assert_eq!(four_draw(&b, 4, 16), off_floor());
    assert_eq!(draw(&four::drawn_bytes(), &four::hex(four::B_LIGHT), 0, 9), standing(0.0, 0.0));
}

/// D stops on cell 1 and waits there. The motion that stops it leads from cell 1 to cell 1, and is rolling all the same.
#[test]
fn d_waits_on_the_way() {
    let d = Light { arrival: 10, ..light(&[M(0), M(3), W(2), M(4), M(2)]) };
    for frame in FRAMES {
        assert_eq!(four_draw(&d, 1, frame), rolling(1000.0, 0.0, frame as f32 / 16.0), "frame {frame}");
        assert_eq!(four_draw(&d, 2, frame), standing(1000.0, 0.0), "frame {frame}");
    }
    assert_eq!(four_draw(&d, 3, 4), rolling(1250.0, 125.0, 0.25));
    assert_eq!(four_draw(&d, 4, 0), rolling(2000.0, 500.0, 0.0));
}

/// Nothing is walked: each motion is drawn between its own cells, and a wait where the motion before it ends.
#[test]
fn steps_that_do_not_join() {
    let twice = light(&[M(2), W(1), M(2), W(65_535)]);
    for step in [0, 2] {
        assert_eq!(four_draw(&twice, step, 4), rolling(2250.0, 500.0, 0.25), "step {step}");
    }
    for (step, frame) in [1, 3].into_iter().flat_map(|step| FRAMES.map(move |frame| (step, frame))) {
        assert_eq!(four_draw(&twice, step, frame), standing(3000.0, 500.0), "step {step}, frame {frame}");
    }
    // M2 begins on cell 2. The first wait stands at the start before it, on cell 0, the second where M0 ends, on cell 1.
    let apart = light(&[W(1), M(2), M(0), W(1), M(2)]);
    assert_eq!(four_draw(&apart, 0, 5), standing(0.0, 0.0));
    assert_eq!(four_draw(&apart, 1, 0), rolling(2000.0, 500.0, 0.0));
    assert_eq!(four_draw(&apart, 3, 5), standing(1000.0, 0.0));
    // From another start, which may roll.
    assert_eq!(four_draw(&Light { start: 3, ..apart }, 0, 5), standing(2000.0, 500.0));
}

/// What an audit asks of a light, and a draw does not.
#[test]
fn what_is_not_asked() {
    let a = light(&A);
    let others = [
        Light { tug: 0, ..a.clone() },
        Light { tug: 200, ..a.clone() },
        Light { tug: 255, ..a.clone() },
        Light { edition: u32::MAX, ..a.clone() },
        // A rolling goal, a goal and an arrival that are not the plan's, and a start that is not.
        Light { goal: 3, ..a.clone() },
        Light { goal: 0, arrival: 0, tick: 12, ..a.clone() },
        Light { start: 2, ..a.clone() },
        Light { arrival: 12, dwell: MAX_DWELL, ..a.clone() },
    ];
    for other in others {
        assert_eq!(four_draw(&other, 1, 3), rolling(1187.5, 93.75, 0.1875), "{other:?}");
        assert_eq!(four_draw(&other, 3, 3), off_floor(), "{other:?}");
        assert_eq!(four_draw(&other, 1, 17), refused(20), "{other:?}");
    }
}

#[test]
fn centres_of_four_in_line() {
    let a = light(&A).encode();
    let centres = four::with_centres(0).centres;
    let more = [centres.clone(), vec![Centre { x: 4_000, y: 500 }]].concat();
    for (n, number) in [(0, 20), (1, 4), (2, 4), (3, 4), (4, 0), (5, 4)] {
        let file = encode(&Site { centres: more[..n].to_vec(), ..four::site() });
        assert_eq!(file.len(), 116 + 7 * n);
        let opened = if number == 4 { 4 } else { 0 };
        assert_eq!(desk::open(&file, &mut [9; 56]), Answer::plain(opened), "{n} centres");
        let drawn = draw(&file, &a, 0, 1);
        assert_eq!(drawn, if number == 0 { rolling(62.5, 0.0, 0.0625) } else { refused(number) }, "{n} centres");
    }
    // 20 whatever the step is.
    for step in [0, 2, 3, 65_535] {
        assert_eq!(draw(&four::bytes(), &a, step, 0), refused(20), "step {step}");
    }
}

/// Two cells with the centres given, and a motion from the first to the second.
fn two_cells(centres: [(u16, u16); 2]) -> Site {
    let states = vec![State { cell: 0, speed: 0 }, State { cell: 1, speed: 0 }];
    let motions = vec![Motion { from: 0, to: 1, d: 1, sweeps: vec![Sweep { cell: 0, a: 0, b: 1 }, Sweep { cell: 1, a: 1, b: 1 }] }];
    Site { h: 9, c: 2, margin: 0, states, motions, centres: centres.map(|(x, y)| Centre { x, y }).to_vec() }
}

fn one_motion() -> Vec<u8> {
    Light { goal: 1, arrival: 1, ..light(&[M(0), W(1)]) }.encode()
}

#[test]
fn from_65_535_to_0() {
    let file = encode(&two_cells([(65_535, 0), (0, 65_535)]));
    let pictures = [(0, 65_535.0, 0.0), (1, 61_439.0625, 4_095.9375), (8, 32_767.5, 32_767.5), (15, 4_095.9375, 61_439.0625), (16, 0.0, 65_535.0)];
    for (frame, x, y) in pictures {
        assert_eq!(draw(&file, &one_motion(), 0, frame), rolling(x, y, frame as f32 / 16.0), "frame {frame}");
    }
    assert_eq!(draw(&file, &one_motion(), 1, 16), standing(0.0, 65_535.0));
}

/// Holds a float to so many sixteenths, without rounding: it becomes a 64-bit float, and that times 16 one, exactly. 0 is not -0.
fn exact(drawn: f32, sixteenths: i64) {
    assert_eq!(drawn as f64 * 16.0, sixteenths as f64);
    assert!(drawn.is_sign_positive(), "{drawn}");
}

/// Every frame between two coordinates, each as x and as y: 16 times a drawn one is 16 times the old one plus k times the difference.
fn every_frame(old: (u16, u16), new: (u16, u16)) {
    let (file, light) = (encode(&two_cells([old, new])), one_motion());
    for frame in FRAMES {
        let drawn = desk::draw(&file, &light, 0, frame);
        let sixteenths = |old: u16, new: u16| 16 * old as i64 + frame as i64 * (new as i64 - old as i64);
        assert_eq!((drawn.number, drawn.kind), (0, ROLLING));
        exact(drawn.x, sixteenths(old.0, new.0));
        exact(drawn.y, sixteenths(old.1, new.1));
        exact(drawn.share, frame as i64);
        assert_eq!(drawn, plain::draw(&file, &light, 0, frame));
        assert_eq!(drawn, literal_desk::draw(&file, &light, 0, frame));
    }
}

#[test]
fn coordinates() {
    let special = [0, 1, 2, 15, 16, 17, 255, 256, 257, 4_095, 4_096, 32_767, 32_768, 32_769, 65_279, 65_280, 65_534, 65_535];
    for old in special {
        for new in special {
            every_frame((old, new), (new, old));
        }
    }
    let mut rng = Rng::new(7);
    for _ in 0..20_000 {
        let [a, b, c, d] = [0; 4].map(|_| rng.draw() as u16);
        every_frame((a, b), (c, d));
    }
}

/// The picture of a light by the numbers of the site, with each coordinate in sixteenths: kind, x, y and share. It is written without a look at
/// `literal::Site::picture`, from the light's bytes.
fn in_sixteenths(site: &Site, light: &[u8], step: usize, frame: u8) -> (u64, i64, i64, i64) {
    let k = frame as i64;
    let steps: Vec<&[u8]> = light[18..].chunks(5).collect();
    let motion = |step: &[u8]| &site.motions[step[3] as usize * 256 + step[4] as usize];
    let centre = |state: u16| {
        let Centre { x, y } = site.centres[site.states[state as usize].cell as usize];
        (x as i64, y as i64)
    };
    if step >= steps.len() {
        return (OFF_FLOOR, 0, 0, 0);
    }
    if steps[step][0] == 18 {
        let (from, to) = (centre(motion(steps[step]).from), centre(motion(steps[step]).to));
        return (ROLLING, 16 * from.0 + k * (to.0 - from.0), 16 * from.1 + k * (to.1 - from.1), k);
    }
    let at = if step == 0 { centre(u16::from_be_bytes([light[8], light[9]])) } else { centre(motion(steps[step - 1]).to) };
    (STANDING, 16 * at.0, 16 * at.1, 0)
}

/// Every frame of every step of a light, and of two steps behind it. Gives how many pictures of each kind there are.
fn every_picture(site: &Site, file: &[u8], light: &[u8]) -> [usize; 3] {
    let mut kinds = [0; 3];
    let steps = (light.len() - 18) / 5;
    for (step, frame) in (0..steps + 2).flat_map(|step| FRAMES.map(move |frame| (step, frame))) {
        let drawn = desk::draw(file, light, step as u16, frame);
        let (kind, x, y, share) = in_sixteenths(site, light, step, frame);
        assert_eq!((drawn.number, drawn.kind), (0, kind), "step {step}, frame {frame}");
        exact(drawn.x, x);
        exact(drawn.y, y);
        exact(drawn.share, share);
        kinds[kind as usize] += 1;
    }
    for step in [0, steps] {
        assert_eq!(desk::draw(file, light, step as u16, 17), refused(20));
    }
    kinds
}

/// Lights of granted routes.
#[test]
fn every_frame_of_granted_routes() {
    let mut rng = Rng::new(1);
    let mut kinds = [0; 3];
    for _ in 0..2_000 {
        let size = rng.pick(&[Size::Tiny, Size::Row, Size::Row, Size::Small, Size::Hall]);
        let site = gen::site(&mut rng, size);
        let site = Site { centres: gen::centres(&mut rng, site.c), ..site };
        let (file, board) = (encode(&site), gen::board(&mut rng, &site));
        let (mut out, mut work) = (vec![0; site.output_len()], vec![0; site.states.len() * (site.h + 1)]);
        for _ in 0..8 {
            let (start, goal) = (rng.below(site.states.len()) as u16, rng.below(site.states.len()) as u16);
            let answer = desk::route(&file, &board, 7, start, rng.below(1 + site.h / 2) as u16, goal, 0, &mut out, &mut work);
            if answer.number == 0 && answer.value > 18 {
                let seen = every_picture(&site, &file, &out[..answer.value as usize]);
                kinds.iter_mut().zip(seen).for_each(|(all, more)| *all += more);
            }
        }
    }
    assert!(kinds.iter().zip([30_000, 3_000, 30_000]).all(|(&n, least)| n >= least), "pictures off the floor, standing and rolling: {kinds:?}");
}

/// Lights in layout whose steps are any, mostly not joined.
#[test]
fn every_frame_of_any_lights() {
    let mut rng = Rng::new(2);
    let mut kinds = [0; 3];
    for _ in 0..600 {
        let size = rng.pick(&[Size::Tiny, Size::Row, Size::Small, Size::Hall, Size::Middle]);
        let site = gen::site(&mut rng, size);
        let site = Site { centres: gen::centres(&mut rng, site.c), ..site };
        let file = encode(&site);
        for _ in 0..3 {
            let mut steps: Vec<Step> = Vec::new();
            for _ in 0..rng.below(9) {
                match steps.last() {
                    Some(Step::Wait(_)) if site.motions.is_empty() => {}
                    Some(Step::Move(_)) | None if site.motions.is_empty() || rng.percent(40) => steps.push(W(rng.range(1, 65_535) as u16)),
                    _ => steps.push(M(rng.below(site.motions.len()) as u16)),
                }
            }
            let (s, h) = (site.states.len(), site.h);
            let [start, goal] = [0; 2].map(|_| rng.below(s) as u16);
            let [tick, arrival] = [0; 2].map(|_| rng.range(0, h) as u16);
            let (edition, tug, dwell) = (rng.draw() as u32, rng.draw() as u8, rng.range(0, 1_000) as u16);
            let light = Light { edition, tug, start, tick, goal, arrival, dwell, steps }.encode();
            let seen = every_picture(&site, &file, &light);
            kinds.iter_mut().zip(seen).for_each(|(all, more)| *all += more);
        }
    }
    assert!(kinds.iter().all(|&n| n >= 10_000), "pictures off the floor, standing and rolling: {kinds:?}");
}

/// 1,000 steps and the head are 5,018 bytes. Each step is drawn, also those above 255; with one step more the light is refused.
#[test]
fn longest_light() {
    let site = four::with_centres(0);
    let file = encode(&site);
    let steps: Vec<Step> = (0..1_000).map(|k| if k % 3 == 2 { W(1) } else { M(k % 5) }).collect();
    let longest = light(&steps).encode();
    assert_eq!((longest.len(), every_picture(&site, &file, &longest)), (5_018, [2 * 17, 333 * 17, 667 * 17]));
    // By hand: step 999 is M4, from cell 1 to cell 2; 512 is a wait behind M1, which ends on cell 2.
    assert_eq!(draw(&file, &longest, 999, 4), rolling(1250.0, 125.0, 0.25));
    assert_eq!(draw(&file, &longest, 512, 4), standing(2000.0, 500.0));
    assert_eq!(draw(&file, &longest, 1_000, 4), off_floor());
    let longer = light(&[&steps[..], &[M(0)]].concat()).encode();
    for frame in [0, 16, 17] {
        assert_eq!(draw(&file, &longer, 0, frame), refused(8), "frame {frame}");
    }
}

/// A call whose site, light and frame have the faults of some of draw's numbers. Number 4 is one centre less or more, or a field of another tag; number 20
/// a frame too large, no centres, or both.
fn faulty(numbers: &[u8], layout: usize, picture: usize) -> (Vec<u8>, Vec<u8>, u8) {
    let has = |number: u8| numbers.contains(&number);
    let mut site = four::with_centres(0);
    if has(20) && picture > 0 {
        site.centres.clear();
    }
    if has(6) {
        site.motions[0].to = site.motions[0].from;
    }
    if has(5) {
        site.states[0].cell = 4;
    }
    let mut fields = encode_fields(&site);
    if has(4) {
        match layout {
            0 => fields.push((4, vec![0; 4])),
            1 if !site.centres.is_empty() => {
                fields.pop();
            }
            _ => fields.push((5, vec![0; 4])),
        }
    }
    if has(3) {
        fields[0].1[6] = 21;
    }
    let mut file = Vec::new();
    fields.iter().for_each(|(tag, value)| put(&mut file, *tag, value));
    if has(2) {
        file.extend([4, 0, 4, 0]);
    }
    if has(1) {
        file.resize(65_537, 4);
    }
    let mut steps = A.to_vec();
    if has(10) {
        steps[1] = M(5);
    }
    if has(8) {
        steps.push(W(0));
    }
    (file, light(&steps).encode(), if has(20) && picture != 1 { 17 } else { 16 })
}

/// Each choice of draw's numbers at once: the answer is the least of them. With all of them it is 1, and so on, one less each time, to 0.
#[test]
fn order_of_checks() {
    const NUMBERS: [u8; 9] = [1, 2, 3, 4, 5, 6, 8, 10, 20];
    for choice in 0..1 << NUMBERS.len() {
        let numbers: Vec<u8> = NUMBERS.into_iter().enumerate().filter(|(i, _)| choice >> i & 1 == 1).map(|(_, number)| number).collect();
        let first = numbers.first().copied().unwrap_or(0);
        for (layout, picture) in [(0, 0), (1, 0), (2, 1), (0, 1), (1, 2)] {
            let (file, light, frame) = faulty(&numbers, layout, picture);
            let wanted = if first == 0 { rolling(3000.0, 500.0, 1.0) } else { refused(first) };
            assert_eq!(draw(&file, &light, 2, frame), wanted, "{numbers:?}");
            // Past the last step the same checks are made.
            let wanted = if first == 0 { off_floor() } else { refused(first) };
            assert_eq!(draw(&file, &light, 9, frame), wanted, "{numbers:?}");
            // The others ask for 1 to 6 alike, and then for 7, which a draw does not.
            let opened = if first <= 6 { first } else { 0 };
            assert_eq!(desk::open(&file, &mut [9; 56]), Answer::plain(opened), "{numbers:?}");
            assert_eq!(desk::open(&file, &mut [9; 57]), Answer::plain(if opened == 0 { 7 } else { opened }), "{numbers:?}");
        }
    }
}

/// What number 10 stands for in a light, each alone, at its limit and one past it; 20 comes behind it, and 8 before it.
#[test]
fn range_of_a_light() {
    let site = four::with_centres(0);
    let file = encode(&site);
    let a = light(&A);
    let at_limits = Light { start: 4, tick: 12, goal: 4, arrival: 12, dwell: 1_000, steps: vec![M(4)], ..a.clone() };
    assert_eq!(four_draw(&at_limits, 0, 0), rolling(1000.0, 0.0, 0.0));
    let past = [
        Light { start: 5, ..a.clone() },
        Light { start: 256, ..a.clone() },
        Light { tick: 13, ..a.clone() },
        Light { goal: 5, ..a.clone() },
        Light { goal: 65_535, ..a.clone() },
        Light { arrival: 13, ..a.clone() },
        Light { dwell: 1_001, ..a.clone() },
        Light { steps: vec![M(0), M(5)], ..a.clone() },
        Light { steps: vec![W(1), M(256)], ..a.clone() },
        Light { steps: [&A[..], &[W(1), M(65_535)]].concat(), ..a.clone() },
    ];
    for other in past {
        for (step, frame) in [(0, 0), (0, 17), (9, 16), (9, 255)] {
            assert_eq!(draw(&file, &other.encode(), step, frame), refused(10), "{other:?}");
            assert_eq!(draw(&four::bytes(), &other.encode(), step, frame), refused(10), "{other:?}, without centres");
            // A byte behind it is against the layout.
            let longer = [&other.encode()[..], &[18]].concat();
            assert_eq!(draw(&file, &longer, step, frame), refused(8), "{other:?}, and a byte");
        }
    }
    let two_waits = light(&[M(0), W(1), W(1)]).encode();
    for bytes in [&[][..], &two_waits[..], &a.encode()[..32], &a.encode()[1..]] {
        for frame in [0, 17] {
            assert_eq!(draw(&file, bytes, 0, frame), refused(8), "{bytes:?}");
        }
    }
}

/// Head, states and motions of the worked hall, and its centres.
fn parts() -> [Vec<u8>; 4] {
    let all = four::drawn_bytes();
    [&all[..10], &all[10..40], &all[40..116], &all[116..]].map(<[u8]>::to_vec)
}

/// Files whose centres are wrong, each with what is wrong.
fn wrong_layouts() -> Vec<(String, Vec<u8>)> {
    let [head, states, motions, centres] = &parts();
    let body = |parts: &[&[u8]]| [&[&head[..]], parts].concat().concat();
    let mut all: Vec<(String, Vec<u8>)> = Vec::new();
    for n in [1, 2, 3, 5, 6, 8, 260] {
        let fields: Vec<u8> = centres.iter().copied().cycle().take(7 * n).collect();
        all.push((format!("{n} centres"), body(&[states, motions, &fields])));
        all.push((format!("{n} centres and no motions"), body(&[states, &fields])));
    }
    for len in [0, 1, 2, 3, 5, 6, 8, 255] {
        let wrong = |_| [&[4, 0, len as u8][..], &vec![0; len]].concat();
        let one = [&centres[..21], &wrong(())].concat();
        let first = [&wrong(())[..], &centres[7..]].concat();
        all.push((format!("a centre of {len} bytes"), body(&[states, motions, &one])));
        all.push((format!("the first centre of {len} bytes"), body(&[states, motions, &first])));
        all.push((format!("4 centres of {len} bytes"), body(&[states, motions, &[(); 4].map(wrong).concat()])));
    }
    // The low byte of this length is 4.
    all.push(("a centre of 260 bytes".into(), body(&[states, motions, &centres[..21], &four::hex(&format!("04 0104 {}", "00".repeat(260)))])));
    for tag in [0, 1, 2, 3, 5, 6, 20, 36, 132, 255] {
        for place in [0, 1, 3] {
            let mut other = centres.clone();
            other[7 * place] = tag;
            all.push((format!("centre {place} with tag {tag}"), body(&[states, motions, &other])));
        }
        let mut others = centres.clone();
        others.chunks_mut(7).for_each(|field| field[0] = tag);
        all.push((format!("all centres with tag {tag}"), body(&[states, motions, &others])));
        all.push((format!("a field with tag {tag} behind them"), body(&[states, motions, centres, &[tag, 0, 4, 0, 0, 0, 0]])));
        all.push((format!("an empty field with tag {tag} behind them"), body(&[states, motions, centres, &[tag, 0, 0]])));
    }
    for (name, file) in [
        ("before the states", body(&[centres, states, motions])),
        ("before the motions", body(&[states, centres, motions])),
        ("among the states", body(&[&states[..6], centres, &states[6..], motions])),
        ("among the motions", body(&[states, &motions[..16], centres, &motions[16..]])),
        ("before the last motion", body(&[states, &motions[..60], centres, &motions[60..]])),
        ("some before the motions", body(&[states, &centres[..7], motions, &centres[7..]])),
        ("the last one before the motions", body(&[states, &centres[21..], motions, &centres[..21]])),
        ("a motion between two centres", body(&[states, &motions[..60], &centres[..14], &motions[60..], &centres[14..]])),
        ("a motion behind them", body(&[states, motions, centres, &motions[..16]])),
        ("a state behind them", body(&[states, motions, centres, &states[..6]])),
        ("the last state behind them", body(&[&states[..24], motions, centres, &states[24..]])),
        ("the head behind them", body(&[states, motions, centres, head])),
        ("in place of a state", body(&[&states[..24], &centres[..7], motions, centres])),
        ("no states", body(&[centres])),
    ] {
        all.push((name.into(), file));
    }
    all.push(("before the head".into(), [centres, head, states, motions].map(|part| part.clone()).concat()));
    all
}

/// Every wrong layout is 4 from every call; with a wrong cell or a wrong motion too. A field that runs past the end is 2, and one before the head 3.
#[test]
fn every_wrong_layout() {
    let good = light(&A).encode();
    let layouts = wrong_layouts();
    assert!(layouts.len() >= 100, "{}", layouts.len());
    for (name, file) in layouts {
        let number = if name == "before the head" { 3 } else { 4 };
        assert_eq!((Site::read(&file).err(), draw(&file, &good, 0, 0)), (Some(number), refused(number)), "{name}");
        assert_eq!(draw(&file, &[], 0, 17), refused(number), "{name}");
        let (mut out, mut numbers, mut work, mut board) = (vec![9; 78], vec![9; 14], vec![9; 65], vec![9; 56]);
        let said = [
            desk::open(&file, &mut board),
            desk::interval(&file, &board, 0, &mut numbers),
            desk::route(&file, &board, 7, 0, 0, 4, 0, &mut out, &mut work),
            desk::audit(&file, &board, &good),
            desk::post(&file, &mut board, &good),
            desk::close(&file, &mut board, 200, 0, 0, 0),
            desk::withdraw(&file, &mut board, 7),
        ];
        assert_eq!(said, [Answer::plain(number); 7], "{name}");
        assert!(out == [9; 78] && numbers == [9; 14] && work == [9; 65] && board == [9; 56], "{name}: an area changed");
        // State 0 in cell 4, and motion 0 to its from state, if these stand where they should.
        let (mut cell, mut motion) = (file.clone(), file.clone());
        if file[10..16] == parts()[1][..6] {
            cell[14] = 4;
            assert_eq!(desk::open(&cell, &mut board), Answer::plain(number), "{name}, and a cell");
        }
        if file.len() > 56 && file[40..56] == parts()[2][..16] {
            motion[46] = 0;
            assert_eq!(desk::open(&motion, &mut board), Answer::plain(number), "{name}, and a motion");
            assert_eq!(draw(&motion, &good, 0, 0), refused(number), "{name}, and a motion");
        }
    }
}

/// Right layouts: with no centres or 4, with motions and without, and with a wrong cell or motion beside right centres.
#[test]
fn right_layouts() {
    let [head, states, motions, centres] = parts();
    let open = |parts: &[&[u8]]| desk::open(&parts.concat(), &mut [9; 56]).number;
    assert_eq!(open(&[&head, &states]), 0);
    assert_eq!(open(&[&head, &states, &centres]), 0);
    assert_eq!(open(&[&head, &states, &motions]), 0);
    assert_eq!(open(&[&head, &states, &motions, &centres]), 0);
    // Their values may be any.
    for value in ["0000 0000", "FFFF FFFF", "0404 0404", "0300 0D00"] {
        assert_eq!(open(&[&head, &states, &motions, &four::hex(&format!("04 0004 {value} ").repeat(4))]), 0, "{value}");
    }
    let (mut cell, mut motion) = (states.clone(), motions.clone());
    cell[4] = 4;
    motion[6] = 0;
    assert_eq!(open(&[&head, &cell, &motions, &centres]), 5);
    assert_eq!(open(&[&head, &states, &motion, &centres]), 6);
    assert_eq!(open(&[&head, &cell, &motion, &centres]), 5);
    // Cut within the centres.
    let whole = [&head[..], &states, &motions, &centres].concat();
    for len in 117..144 {
        let number = if (len - 116) % 7 == 0 { 4 } else { 2 };
        assert_eq!(desk::open(&whole[..len], &mut [9; 56]).number, number, "{len} bytes");
        assert_eq!(draw(&whole[..len], &light(&A).encode(), 0, 0), refused(number), "{len} bytes");
    }
}

/// 1,000 cells with a state and a centre each, no two alike: a tug that waits in a state is drawn at that cell's centre, and at no other. Low bytes of
/// cells agree, and of the number of centres.
#[test]
fn centres_of_1_000_cells() {
    let states = (0..1_000).map(|cell| State { cell: 999 - cell, speed: 0 }).collect();
    let centre = |cell: u16| Centre { x: 65_535 - 61 * cell, y: 3 * cell + 7 };
    let site = Site { h: 12, c: 1_000, margin: 0, states, motions: vec![], centres: (0..1_000).map(centre).collect() };
    let file = encode(&site);
    assert_eq!(file.len(), 10 + 6_000 + 7_000);
    for start in 0..1_000 {
        let waits = Light { start, goal: start, arrival: 1, ..light(&[W(1)]) }.encode();
        let cell = 999 - start;
        assert_eq!(draw(&file, &waits, 0, 16), standing((65_535 - 61 * cell as u32) as f32, (3 * cell as u32 + 7) as f32), "cell {cell}");
    }
    let waits = Light { goal: 0, arrival: 1, ..light(&[W(1)]) }.encode();
    for n in [1, 231, 232, 233, 255, 256, 488, 744, 998, 999, 1_001, 1_256, 2_000] {
        let centres = (0..n).map(|cell| centre(cell % 1_000)).collect();
        let other = encode(&Site { centres, ..site.clone() });
        assert_eq!(draw(&other, &waits, 0, 0), refused(4), "{n} centres");
        assert_eq!(desk::open(&other, &mut vec![9; site.board_len()]), Answer::plain(4), "{n} centres");
    }
    // Cells 0 to 255 only, and one cell more than there are centres.
    for c in [255, 256, 257] {
        let states: Vec<State> = (0..c).map(|cell| State { cell: cell as u16, speed: 0 }).collect();
        for n in [c - 1, c, c + 1] {
            let small = Site { c, states: states.clone(), centres: (0..n as u16).map(centre).collect(), ..site.clone() };
            let last = Light { start: c as u16 - 1, goal: 0, arrival: 1, ..light(&[W(1)]) }.encode();
            let wanted = if n == c { standing((65_535 - 61 * (c - 1)) as f32, (3 * (c - 1) + 7) as f32) } else { refused(4) };
            assert_eq!(draw(&encode(&small), &last, 0, 3), wanted, "{n} centres of {c} cells");
        }
    }
}

/// As many bytes as a file may have, and one more. Its fields are right in all of them.
#[test]
fn longest_files() {
    let longest = |s: u16, c: usize, len: usize| {
        let states = (0..s).map(|k| State { cell: k % 2, speed: 0 }).collect();
        let motion = |k: u16| Motion { from: k % 2, to: 1 - k % 2, d: 1, sweeps: vec![Sweep { cell: 0, a: 0, b: 1 }, Sweep { cell: 1, a: 0, b: 1 }] };
        let centres = (0..c).map(|cell| Centre { x: cell as u16, y: 65_535 - cell as u16 }).collect();
        let motions: Vec<Motion> = (0..3_500).map(motion).collect();
        let mut site = Site { h: 12, c, margin: 0, states, motions, centres };
        // As many motions as have room; then each of the last has as many sweeps more as are left.
        let mut bytes = encode(&site).len();
        while bytes > len {
            site.motions.pop();
            bytes -= 16;
        }
        for motion in &mut site.motions {
            let more = ((len - bytes) / 4).min(14);
            motion.sweeps.extend(vec![Sweep { cell: 1, a: 0, b: 1 }; more]);
            bytes += 4 * more;
        }
        assert_eq!(encode(&site).len(), len);
        encode(&site)
    };
    let light = Light { goal: 1, arrival: 1, ..light(&[M(0)]) }.encode();
    for (s, c, len) in [(5, 1_000, 65_536), (5, 4, 65_536), (1_279, 1_000, 65_536), (1_280, 1_000, 65_534), (4, 999, 65_535)] {
        let file = longest(s, c, len);
        assert_eq!(desk::open(&file, &mut vec![9; 4 + 13 * c]), Answer::plain(0), "{s} states, {c} cells, {len} bytes");
        assert_eq!(draw(&file, &light, 0, 4), rolling(0.25, 65_534.75, 0.25), "{s} states, {c} cells, {len} bytes");
        // One centre less; and one more, which makes it too long.
        let less = &file[..len - 7];
        assert_eq!((draw(less, &light, 0, 4), draw(&[&file[..], &file[len - 7..]].concat(), &light, 0, 4)), (refused(4), refused(1)));
    }
    for (s, c, len) in [(5, 999, 65_537), (4, 1_000, 65_538)] {
        let file = longest(s, c, len);
        assert_eq!(desk::open(&file, &mut vec![9; 4 + 13 * c]), Answer::plain(1), "{s} states, {c} cells, {len} bytes");
        assert_eq!(draw(&file, &light, 0, 4), refused(1), "{s} states, {c} cells, {len} bytes");
    }
}

/// 1,000 cells, 1,280 states, 4,000 motions and 1,000 centres, as many of each as there can be, fit into one file: 10 + 7,680 + 48,000 + 7,000 bytes.
#[test]
fn all_numbers_at_once() {
    let states = (0..1_280).map(|s| State { cell: s % 1_000, speed: 0 }).collect();
    let motion = |k: u16| Motion { from: k % 280, to: k % 280 + 1_000, d: 1, sweeps: vec![Sweep { cell: k % 280, a: 0, b: 1 }] };
    let centres: Vec<Centre> = (0..1_000).map(|cell| Centre { x: cell, y: 2 * cell }).collect();
    let site = Site { h: 1_000, c: 1_000, margin: 20, states, motions: (0..4_000).map(motion).collect(), centres };
    let file = encode(&site);
    assert_eq!((file.len(), desk::open(&file, &mut vec![9; 1_001_004])), (62_690, Answer::plain(0)));
    // Motion 3,999 stays on cell 79.
    let light = Light { start: 79, goal: 1_279, arrival: 1, ..light(&[W(1), M(3_999)]) }.encode();
    assert_eq!((draw(&file, &light, 0, 9), draw(&file, &light, 1, 8)), (standing(79.0, 158.0), rolling(79.0, 158.0, 0.5)));
    let without = encode(&Site { centres: vec![], ..site.clone() });
    assert_eq!((without.len(), draw(&without, &light, 1, 8)), (55_690, refused(20)));
}

/// Each call but draw answers the same, and leaves the same, on a site with centres and on the one without.
#[test]
fn other_calls_do_not_see_centres() {
    let mut rng = Rng::new(3);
    let mut accepted = [0; 7];
    for round in 0..if cfg!(feature = "standin") { 300 } else { 1_500 } {
        let size = rng.pick(&[Size::Tiny, Size::Row, Size::Row, Size::Small, Size::Long, Size::Hall]);
        let site = Site { centres: vec![], ..gen::site(&mut rng, size) };
        let with_centres = Site { centres: gen::centres(&mut rng, site.c), ..site.clone() };
        let files = [encode(&site), encode(&with_centres)];
        let mut board = if round % 2 == 0 { gen::board(&mut rng, &site) } else { vec![0; site.board_len()] };
        let mut caller = Caller { site: &site, file: &files[0], lights: vec![] };
        for _ in 0..20 {
            let call = if rng.percent(50) { caller.any(&mut rng, &board) } else { caller.listed(&mut rng, &board) };
            let mut left = Values::new(&mut rng, &files[0], &board, &call);
            let mut other = Values { site: files[1].clone(), ..left.clone() };
            let (answer, other_answer) = (run!(desk, &call, &mut left), run!(desk, &call, &mut other));
            assert_eq!(answer, other_answer, "{call:?}");
            other.site = files[0].clone();
            assert!(left == other, "what {call:?} left");
            accepted[call.kind()] += usize::from(answer.number == 0);
            if matches!(call, Call::Route { .. }) && answer.number == 0 {
                caller.lights.push(left.bytes[..answer.value as usize].to_vec());
            }
            if !matches!(call, Call::Open) {
                board = left.board;
            }
        }
    }
    assert!(accepted.iter().all(|&n| n >= 50), "accepted calls: {accepted:?}");
}
