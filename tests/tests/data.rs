//! Bytes worked out by hand, field by field, from the numbers of the worked hall and the layouts of docs/FORMATS.md, against the tests' own encoder and reader, the day program's
//! data and the desk. What the desk's routes answer on 'Four in line' stands in `worked.rs`, and what the day program prints in `day.rs`.

use dispatch_tests::desk::{self, Answer, Drawn, OFF_FLOOR, ROLLING, STANDING};
use dispatch_tests::literal::{encode, fields, number, put, Centre, Light, Motion, Site, State, Step, Sweep};
use dispatch_tests::plain_board::PlainBoard;
use dispatch_tests::{c, day, four};
use std::fs;

/// Fields in hexadecimal, each with what it says.
type Fields = [(&'static str, &'static str)];

fn bytes(fields: &Fields) -> Vec<u8> {
    fields.iter().flat_map(|field| four::hex(field.0)).collect()
}

/// Compares field by field, so that a failure names what differs.
fn same(got: &[u8], wanted: &Fields, what: &str) {
    let mut rest = got;
    for (text, says) in wanted {
        let field = four::hex(text);
        let (first, later) = rest.split_at(field.len().min(rest.len()));
        assert_eq!(first, field, "{what}: {says}");
        rest = later;
    }
    assert!(rest.is_empty(), "{what} has {} bytes too many", rest.len());
}

fn file(name: &str) -> Vec<u8> {
    fs::read(c::root().join("crates/day").join(name)).unwrap()
}

/// The site file of 'Four in line'.
#[rustfmt::skip]
const SITE: [(&str, &str); 34] = [
    ("01 0007", "head, 7 bytes"), ("000C", "H 12"), ("0004", "4 cells"), ("0005", "5 states"), ("00", "margin 0"),
    ("02 0003", "state 0, 3 bytes"), ("0000 00", "cell 0, standing"),
    ("02 0003", "state 1, 3 bytes"), ("0001 01", "cell 1, speed 1"),
    ("02 0003", "state 2, 3 bytes"), ("0001 00", "cell 1, standing"),
    ("02 0003", "state 3, 3 bytes"), ("0002 01", "cell 2, speed 1"),
    ("02 0003", "state 4, 3 bytes"), ("0003 00", "cell 3, standing"),
    ("03 000D", "motion 0, 5 bytes and 2 sweeps of 4"), ("0000 0001 02", "from 0 to 1, span 2"),
    ("0000 00 01", "cell 0 at 0 to 1"), ("0001 01 02", "cell 1 at 1 to 2"),
    ("03 000D", "motion 1, 5 bytes and 2 sweeps of 4"), ("0001 0003 01", "from 1 to 3, span 1"),
    ("0001 00 01", "cell 1 at 0 to 1"), ("0002 01 01", "cell 2 at 1 to 1"),
    ("03 000D", "motion 2, 5 bytes and 2 sweeps of 4"), ("0003 0004 02", "from 3 to 4, span 2"),
    ("0002 00 01", "cell 2 at 0 to 1"), ("0003 01 02", "cell 3 at 1 to 2"),
    ("03 0009", "motion 3, 5 bytes and 1 sweep of 4"), ("0001 0002 02", "from 1 to 2, span 2"),
    ("0001 00 02", "cell 1 at 0 to 2"),
    ("03 000D", "motion 4, 5 bytes and 2 sweeps of 4"), ("0002 0003 02", "from 2 to 3, span 2"),
    ("0001 00 01", "cell 1 at 0 to 1"), ("0002 01 02", "cell 2 at 1 to 2"),
];

/// The centres that the worked hall has in docs/FORMATS.md, behind its motions.
#[rustfmt::skip]
const CENTRES: [(&str, &str); 8] = [
    ("04 0004", "cell 0, 4 bytes"), ("0000 0000", "x 0, y 0"),
    ("04 0004", "cell 1, 4 bytes"), ("03E8 0000", "x 1,000, y 0"),
    ("04 0004", "cell 2, 4 bytes"), ("07D0 01F4", "x 2,000, y 500"),
    ("04 0004", "cell 3, 4 bytes"), ("0BB8 01F4", "x 3,000, y 500"),
];

/// The worked script.
#[rustfmt::skip]
const SCRIPT: [(&str, &str); 11] = [
    ("20 0007", "close, 7 bytes"), ("C8", "closure 200"), ("0003", "cell 3"), ("0000", "from tick 0"), ("0008", "to tick 8"),
    ("22 0009", "route, 9 bytes"), ("07", "tug 7"), ("0000 0000", "from state 0 at tick 0"), ("0004", "to state 4"), ("0000", "dwell 0"),
    ("23 0000", "post, no bytes"),
];

/// B's light, made from edition 1, behind one closure.
#[rustfmt::skip]
const B: [(&str, &str); 10] = [
    ("10 000F", "head, 15 bytes"), ("00000001", "edition 1"), ("07", "tug 7"), ("0000 0000", "from state 0 at tick 0"), ("0004", "to state 4"),
    ("000A 0000", "arrival 10, dwell 0"),
    ("11 0002 0005", "wait 5"),
    ("12 0002 0000", "motion 0, from 5 to 7"), ("12 0002 0001", "motion 1, from 7 to 8"), ("12 0002 0002", "motion 2, from 8 to 10"),
];

/// A's light with dwell 2.
#[rustfmt::skip]
const A_DWELL_2: [(&str, &str); 9] = [
    ("10 000F", "head, 15 bytes"), ("00000000", "edition 0"), ("07", "tug 7"), ("0000 0000", "from state 0 at tick 0"), ("0004", "to state 4"),
    ("0005 0002", "arrival 5, dwell 2"),
    ("12 0002 0000", "motion 0, from 0 to 2"), ("12 0002 0001", "motion 1, from 2 to 3"), ("12 0002 0002", "motion 2, from 3 to 5"),
];

/// The board behind closure 200 on cell 3 from 0 to 8, and B's light.
#[rustfmt::skip]
const BOARD: [(&str, &str); 13] = [
    ("00000002", "edition 2"),
    ("07 07 07 07 07 07", "cell 0 at 0 to 5: the wait"), ("07", "cell 0 at 6: motion 0"), ("00 00 00 00 00 00", "cell 0 at 7 to 12"),
    ("00 00 00 00 00 00", "cell 1 at 0 to 5"), ("07 07 07", "cell 1 at 6 to 8: motions 0 and 1"), ("00 00 00 00", "cell 1 at 9 to 12"),
    ("00 00 00 00 00 00 00 00", "cell 2 at 0 to 7"), ("07 07", "cell 2 at 8 and 9: motions 1 and 2"), ("00 00 00", "cell 2 at 10 to 12"),
    ("C8 C8 C8 C8 C8 C8 C8 C8 C8", "cell 3 at 0 to 8: closure 200"), ("07 07", "cell 3 at 9 and 10: motion 2"), ("00 00", "cell 3 at 11 and 12"),
];

#[test]
fn site_file() {
    same(&four::bytes(), &SITE, "the encoder's file");
    assert_eq!(Site::read(&bytes(&SITE)), Ok(four::site()));
    same(&file("data/site.bin"), &SITE, "crates/day/data/site.bin");
    assert_eq!(file("data/site.bin"), four::bytes());
}

#[test]
fn site_file_with_centres() {
    same(&four::drawn_bytes(), &[&SITE[..], &CENTRES[..]].concat(), "the encoder's file");
    let written = [bytes(&SITE), bytes(&CENTRES)].concat();
    assert_eq!((Site::read(&written), written.len()), (Ok(four::with_centres(0)), 144));
    assert_eq!(desk::open(&written, &mut [9; 56]), Answer::plain(0));
}

/// That the script is the one made with `put` stands in `day.rs`, `worked_example`.
#[test]
fn script_and_lines() {
    let script = file("stdin");
    same(&script, &SCRIPT, "crates/day/stdin");
    let wanted: [(u8, &[u8]); 3] = [(32, &[200, 0, 3, 0, 0, 0, 8]), (34, &[7, 0, 0, 0, 0, 0, 4, 0, 0]), (35, &[])];
    assert_eq!(fields(&script).unwrap(), wanted);
    let lines = "0 1 0\n0 1 10\n0 2 0\n";
    assert_eq!(String::from_utf8(file("stdout")).unwrap(), lines, "crates/day/stdout");
    assert_eq!(day::transcript(Some(&bytes(&SITE)), &bytes(&SCRIPT)), lines);
}

/// That the desk's routes give these lights stands in `worked.rs`, `b_late_departure` and `posted_dwell_is_held`.
#[test]
fn lights() {
    let moves = [0, 1, 2].map(Step::Move);
    let a = Light { edition: 0, tug: 7, start: 0, tick: 0, goal: 4, arrival: 5, dwell: 2, steps: moves.to_vec() };
    let b = Light { edition: 1, arrival: 10, dwell: 0, steps: [vec![Step::Wait(5)], moves.to_vec()].concat(), ..a.clone() };
    for (light, wanted, what) in [(a, &A_DWELL_2[..], "A's light with dwell 2"), (b, &B[..], "B's light")] {
        same(&light.encode(), wanted, what);
        assert_eq!(Light::read(&bytes(wanted)), Some(light), "{what}");
    }
    same(&four::hex(four::B_LIGHT), &B, "the light of case B in `four`");
}

/// The rows of this board, by what the desk's post leaves, stand in `worked.rs`, `k_posted_twice`, too.
#[test]
fn posted_board() {
    let (site, mut board, mut model) = (bytes(&SITE), vec![9; bytes(&BOARD).len()], PlainBoard::new(four::site()));
    assert_eq!(desk::open(&site, &mut board), Answer::plain(0));
    assert_eq!(desk::close(&site, &mut board, 200, 3, 0, 8), Answer::plain(0));
    assert_eq!(desk::post(&site, &mut board, &bytes(&B)), Answer::plain(0));
    same(&board, &BOARD, "the desk's board");
    assert_eq!((model.close(200, 3, 0, 8), model.post(&bytes(&B))), (Answer::plain(0), Answer::plain(0)));
    same(&model.bytes(), &BOARD, "the plain board");
}

/// Numbers above 255 from here on, so that a byte in the wrong place shows. 700 cells; the states 0 to 254 stand in cell 513, state 255 in cell 258. Motion 258
/// alone leads from state 255 to state 0; 599 others lead from 0 to 255, motion 513 among them, whose number has the same bytes, as the cells have.
fn wide() -> Site {
    let motion = |from, to, cells: [u16; 2]| {
        let sweeps = vec![Sweep { cell: cells[0], a: 0, b: 1 }, Sweep { cell: cells[1], a: 1, b: 1 }];
        Motion { from, to, d: 1, sweeps }
    };
    let mut motions = vec![motion(0, 255, [513, 258]); 600];
    motions[258] = motion(255, 0, [258, 513]);
    let mut states = vec![State { cell: 513, speed: 0 }; 256];
    states[255].cell = 258;
    Site { h: 1_000, c: 700, margin: 0, states, motions, centres: vec![] }
}

/// The file of that site: H 1,000, 700 cells, 256 states, margin 0; then the states and the motions.
fn wide_bytes() -> Vec<u8> {
    let forth = "03 000D 0000 00FF 01, 0201 00 01, 0102 01 01 ";
    let back = "03 000D 00FF 0000 01, 0102 00 01, 0201 01 01 ";
    let states = "02 0003 0201 00 ".repeat(255) + "02 0003 0102 00 ";
    four::hex(&format!("01 0007 03E8 02BC 0100 00 {states} {} {back} {}", forth.repeat(258), forth.repeat(600 - 259)))
}

const WIDE_BOARD: usize = 4 + 700 * 1_001;

/// A centre for each of its cells: cell 258 has x 259 and y 772, cell 513 has x 24,929 and y 65,026, and the others have x and y 65,535.
const CENTRE_258: &str = "04 0004 0103 0304";
const CENTRE_513: &str = "04 0004 6161 FE02";

fn wide_centres() -> Vec<u8> {
    let others = |n: usize| "04 0004 FFFF FFFF ".repeat(n);
    four::hex(&[&others(258)[..], CENTRE_258, &others(513 - 259), CENTRE_513, &others(700 - 514)].concat())
}

/// Edition 16,909,060, tug 7, from state 255 at 261 to state 0, arrival 521, dwell 300; wait 259, motion 258.
const WIDE_LIGHT: &str = "10 000F 01020304 07 00FF 0105 0000 0209 012C, 11 0002 0103, 12 0002 0102";

#[test]
fn wide_site() {
    let (site, file) = (wide(), wide_bytes());
    let motions = 10 + 256 * 6;
    assert_eq!(file.len(), motions + 600 * 16);
    assert!(encode(&site) == file, "the encoder's file");
    assert_eq!(Site::read(&file), Ok(site));
    assert_eq!(desk::open(&file, &mut vec![9; WIDE_BOARD]), Answer::plain(0));
    let changed = |at: usize, bytes: &str| {
        let mut changed = file.clone();
        changed[at..at + 2].copy_from_slice(&four::hex(bytes));
        assert_eq!(Site::read(&changed).err().unwrap_or(0), desk::open(&changed, &mut vec![9; WIDE_BOARD]).number);
        Site::read(&changed).err()
    };
    // 256 for 0, as motion 0's from and as motion 258's to. With its bytes in the other order it would be 1, a state in the same cell.
    for (motion, at) in [(0, 0), (258, 2)] {
        assert_eq!(changed(motions + motion * 16 + 3 + at, "0100"), Some(6));
    }
    // Cells 700 and 699 for state 0's. The hall has the second one, but the motions from there don't use it.
    assert_eq!((changed(10 + 3, "02BC"), changed(10 + 3, "02BB")), (Some(5), Some(6)));
}

/// The wait of that light stands on cell 258, the motion leads from there to cell 513.
#[test]
fn wide_pictures() {
    let file = [wide_bytes(), wide_centres()].concat();
    let site = Site::read(&file).unwrap();
    assert!(encode(&site) == file && site == (Site { centres: site.centres.clone(), ..wide() }), "the encoder's file");
    assert_eq!((site.centres[258], site.centres[513]), (Centre { x: 259, y: 772 }, Centre { x: 24_929, y: 65_026 }));
    assert_eq!(desk::open(&file, &mut vec![9; WIDE_BOARD]), Answer::plain(0));
    let light = four::hex(WIDE_LIGHT);
    let drawn = |kind, x, y, share| Drawn { number: 0, kind, x, y, share };
    assert_eq!(desk::draw(&file, &light, 0, 16), drawn(STANDING, 259.0, 772.0, 0.0));
    assert_eq!(desk::draw(&file, &light, 1, 0), drawn(ROLLING, 259.0, 772.0, 0.0));
    // A sixteenth of 24,670 is 1,541.875, and one of 64,254 is 4,015.875.
    assert_eq!(desk::draw(&file, &light, 1, 1), drawn(ROLLING, 1_800.875, 4_787.875, 0.0625));
    assert_eq!(desk::draw(&file, &light, 1, 16), drawn(ROLLING, 24_929.0, 65_026.0, 1.0));
    assert_eq!(desk::draw(&file, &light, 2, 16), Drawn::plain(0, OFF_FLOOR));
    // Steps 256 and 512, whose low bytes are 0.
    for step in [256, 512] {
        assert_eq!(desk::draw(&file, &light, step, 0), Drawn::plain(0, OFF_FLOOR));
    }
    assert_eq!(desk::draw(&wide_bytes(), &light, 0, 0), Drawn::plain(20, OFF_FLOOR));
}

/// No byte twice. Such numbers are too large for any site, but not for the layout.
#[test]
fn distinct_bytes() {
    let steps = vec![Step::Wait(0x1011), Step::Move(0x1213)];
    let light = Light { edition: 0x0102_0304, tug: 5, start: 0x0607, tick: 0x0809, goal: 0x0a0b, arrival: 0x0c0d, dwell: 0x0e0f, steps };
    let bytes = four::hex("10 000F 01020304 05 0607 0809 0A0B 0C0D 0E0F, 11 0002 1011, 12 0002 1213");
    assert_eq!(light.encode(), bytes);
    assert_eq!(Light::read(&bytes), Some(light));
    let motions = vec![Motion { from: 0x0102, to: 0x0304, d: 5, sweeps: vec![Sweep { cell: 0x0607, a: 8, b: 9 }] }];
    let centres = vec![Centre { x: 0x1314, y: 0x1516 }];
    let site = Site { h: 0x0a0b, c: 0x0c0d, margin: 0x12, states: vec![State { cell: 0x0e0f, speed: 0x10 }], motions, centres };
    assert_eq!(encode(&site), four::hex("01 0007 0A0B 0C0D 0001 12, 02 0003 0E0F 10, 03 0009 0102 0304 05, 0607 08 09, 04 0004 1314 1516"));
    let mut field = Vec::new();
    put(&mut field, 9, &[7; 0x0102]);
    assert_eq!(field, four::hex(&format!("09 0102 {}", "07".repeat(258))));
    assert_eq!(fields(&field), Some(vec![(9, &[7; 258][..])]));
    assert_eq!(number(&[1, 2, 3, 4]), 16_909_060);
}

/// A board of that site on which the cells 258 and 513 have these ticks, and the others none.
fn wide_board(edition: &str, cell_258: Vec<u8>, cell_513: Vec<u8>) -> Vec<u8> {
    let free = |cells: usize| vec![0; cells * 1_001];
    [four::hex(edition), free(258), cell_258, free(513 - 259), cell_513, free(700 - 514)].concat()
}

/// Cell 513 is held until 520, so the tug waits from 261 to 520; motion 258 takes it there at 521, and it unloads until 821.
#[test]
fn wide_route() {
    let file = wide_bytes();
    let row = |parts: [(u8, usize); 3]| parts.map(|(byte, n)| vec![byte; n]).concat();
    let mut board = wide_board("01020304", vec![0; 1_001], row([(0xc8, 521), (0, 301), (0, 179)]));
    let (mut out, mut work) = (vec![9; 5_018], vec![9; 256 * 1_001]);
    let light = four::hex(WIDE_LIGHT);
    let steps = vec![Step::Wait(259), Step::Move(258)];
    let read = Light { edition: 16_909_060, tug: 7, start: 255, tick: 261, goal: 0, arrival: 521, dwell: 300, steps };
    assert_eq!((read.encode(), Light::read(&light)), (light.clone(), Some(read)));
    let answer = desk::route(&file, &board, 7, 255, 261, 0, 300, &mut out, &mut work);
    assert_eq!(answer, Answer { number: 0, value: 28, arrival: 521 });
    assert_eq!(out[..28], light);
    assert_eq!(desk::audit(&file, &board, &light), Answer::plain(0));
    assert_eq!(desk::post(&file, &mut board, &light), Answer::plain(0));
    let wanted = wide_board("01020305", row([(0, 261), (7, 261), (0, 479)]), row([(0xc8, 521), (7, 301), (0, 179)]));
    assert!(board == wanted, "the board behind the light");
}
