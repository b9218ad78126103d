//! The day program as an executable against an independent reading of docs/FORMATS.md ('Script', 'What the day program prints').

use dispatch_tests::gen::{self, Rng, Size};
use dispatch_tests::literal::{encode, put, with_head, Motion, Site, State, Sweep};
use dispatch_tests::{c, day, four};
use std::fs;
use std::io::Write;
use std::ops::Range;
use std::path::{Path, PathBuf};
use std::process::{Child, Command, Stdio};
use std::time::Duration;

fn program() -> PathBuf {
    #[cfg(feature = "standin")]
    return PathBuf::from(env!("CARGO_BIN_EXE_day-standin"));
    #[cfg(not(feature = "standin"))]
    return Path::new(env!("CARGO_MANIFEST_DIR")).join("../crates/day/out/day");
}

/// The script with 0 for some bytes of the value of each field with this tag, as far as its fields are whole.
fn without(script: &[u8], tag: u8, part: Range<usize>) -> Vec<u8> {
    let mut changed = script.to_vec();
    let mut at = 0;
    while at + 3 <= script.len() {
        let value = at + 3;
        let end = value + u16::from_be_bytes([script[at + 1], script[at + 2]]) as usize;
        if script[at] == tag && value + part.end <= end && end <= script.len() {
            changed[value..end][part.clone()].fill(0);
        }
        at = end;
    }
    changed
}

/// The script with every dwell 0.
fn without_dwells(script: &[u8]) -> Vec<u8> {
    without(script, 34, 7..9)
}

/// A folder of its own for each test, as they run at the same time.
fn folder(name: &str) -> PathBuf {
    let folder = Path::new(env!("CARGO_TARGET_TMPDIR")).join(name);
    let _ = fs::remove_dir_all(&folder);
    fs::create_dir_all(&folder).unwrap();
    folder
}

fn start(folder: &Path, input: Stdio) -> Child {
    let program = program();
    Command::new(&program)
        .current_dir(folder)
        .stdin(input)
        .stdout(Stdio::piped())
        .stderr(Stdio::piped())
        .spawn()
        .unwrap_or_else(|error| panic!("{} does not start: {error}", program.display()))
}

/// What a started program prints, and that it ends well.
fn printed(child: Child) -> String {
    let done = child.wait_with_output().unwrap();
    assert!(done.status.success(), "the day program ends with {}", done.status);
    assert!(done.stderr.is_empty(), "the day program writes to standard error");
    String::from_utf8(done.stdout).unwrap()
}

/// What the program prints in a folder.
fn output(folder: &Path, script: &[u8]) -> String {
    let mut child = start(folder, Stdio::piped());
    let mut input = child.stdin.take().unwrap();
    let script = script.to_vec();
    // In a thread, as the program may print before it has read everything, or end early.
    let writer = std::thread::spawn(move || {
        let _ = input.write_all(&script);
    });
    let text = printed(child);
    writer.join().unwrap();
    text
}

fn agree(folder: &Path, site: Option<&[u8]>, script: &[u8], what: &str) {
    let path = folder.join("site.bin");
    match site {
        Some(bytes) => fs::write(&path, bytes).unwrap(),
        None => {
            let _ = fs::remove_file(&path);
        }
    }
    let (got, wanted) = (output(folder, script), day::transcript(site, script));
    assert!(got == wanted, "{what}: the day program prints\n{got}\nand should print\n{wanted}");
}

/// What the program prints for a site and the fields of a script.
fn output_of(folder: &Path, site: &Site, fields: &[(u8, Vec<u8>)]) -> String {
    fs::write(folder.join("site.bin"), encode(site)).unwrap();
    let mut script = Vec::new();
    fields.iter().for_each(|(tag, value)| put(&mut script, *tag, value));
    output(folder, &script)
}

fn worked_script() -> Vec<u8> {
    let mut script = Vec::new();
    put(&mut script, 32, &[200, 0, 3, 0, 0, 0, 8]);
    put(&mut script, 34, &[7, 0, 0, 0, 0, 0, 4, 0, 0]);
    put(&mut script, 35, &[]);
    script
}

#[test]
fn worked_example() {
    let folder = folder("worked");
    fs::write(folder.join("site.bin"), four::bytes()).unwrap();
    assert_eq!(output(&folder, &worked_script()), "0 1 0\n0 1 10\n0 2 0\n");
    // The repository's own script is this one.
    assert_eq!(fs::read(c::root().join("crates/day/stdin")).unwrap(), worked_script());
}

/// Request 1, by its text: what is printed is written out here, and not taken from `src/day.rs`.
#[test]
fn quiet_shift() {
    let folder = folder("quiet");
    let site_bin = folder.join("site.bin");
    let site = four::bytes();
    fs::write(&site_bin, &site).unwrap();
    assert_eq!(output(&folder, &[]), "0 0 0\n", "an empty script");
    assert_eq!(printed(start(&folder, Stdio::null())), "0 0 0\n", "the null device");
    for byte in [0, 10, 32, 33, 34, 35, 255] {
        assert_eq!(output(&folder, &[byte]), "99 0 0\n", "the single byte {byte}");
    }
    let script = worked_script();
    assert_eq!(output(&folder, &script[..10]), "0 1 0\n", "a close field");
    // A refused open prints its own line, also with an empty script.
    fs::write(&site_bin, &site[..115]).unwrap();
    assert_eq!(output(&folder, &[]), "2 0 0\n", "a cut site.bin");
    fs::remove_file(&site_bin).unwrap();
    assert_eq!(output(&folder, &[]), "3 0 0\n", "no site.bin");
}

/// Request 2, by its text: what is printed is written out here.
#[test]
fn time_at_the_dock() {
    let folder = folder("dock");
    fs::write(folder.join("site.bin"), four::bytes()).unwrap();
    let run = |values: &[&[u8]]| {
        let mut script = Vec::new();
        for value in values {
            put(&mut script, 34, value);
        }
        output(&folder, &script)
    };
    // From state 0 at tick 0 to state 4, where the horizon leaves seven ticks. The last two bytes are the dwell.
    let route = |high: u8, low: u8| [7, 0, 0, 0, 0, 0, 4, high, low];
    assert_eq!(run(&[&route(0, 0), &route(0, 1), &route(0, 7)]), "0 0 5\n0 0 5\n0 0 5\n", "dwells that fit");
    assert_eq!(run(&[&route(0, 8)]), "18 0 0\n", "one tick too long");
    assert_eq!(run(&[&route(1, 0)]), "18 0 0\n", "dwell 256, high byte first");
    assert_eq!(run(&[&route(3, 232)]), "18 0 0\n", "dwell 1,000");
    assert_eq!(run(&[&route(3, 233)]), "10 0 0\n", "dwell 1,001");
    assert_eq!(run(&[&route(4, 0), &route(255, 255)]), "10 0 0\n10 0 0\n", "dwells 1,024 and 65,535");
    // Start, tick and goal stand before the dwell: state 1 from tick 3, with the dwells 3 and 7.
    assert_eq!(run(&[&[7, 0, 1, 0, 3, 0, 4, 0, 3], &[7, 0, 1, 0, 3, 0, 4, 0, 7]]), "0 0 6\n18 0 0\n", "from a rolling state");
    assert_eq!(run(&[&[7, 0, 0, 0, 0, 0, 2, 0, 8], &[7, 0, 0, 0, 0, 0, 2, 0, 9]]), "0 0 4\n18 0 0\n", "to state 2");
    // The field as it was before, and other lengths.
    let long = [7, 0, 0, 0, 0, 0, 4, 0, 0, 0];
    for len in [6, 7, 8, 10] {
        assert_eq!(run(&[&long[..len], &long[..9]]), "99 0 0\n", "a route field of {len} bytes");
    }
    // A posted light holds its dock: cell 3 at 4 to 7.
    let mut script = Vec::new();
    put(&mut script, 34, &route(0, 2));
    put(&mut script, 35, &[]);
    put(&mut script, 32, &[200, 0, 3, 0, 7, 0, 7]);
    put(&mut script, 32, &[200, 0, 3, 0, 8, 0, 8]);
    assert_eq!(output(&folder, &script), "0 0 5\n0 1 0\n17 1 0\n0 2 0\n", "a posted dwell");
    // Case B: two ticks are left behind its arrival.
    for (dwell, lines) in [(2, "0 1 0\n0 1 10\n0 2 0\n"), (3, "0 1 0\n18 1 0\n8 1 0\n")] {
        let mut script = worked_script();
        script[21] = dwell;
        assert_eq!(output(&folder, &script), lines, "case B with dwell {dwell}");
    }
    // Dwells above 255, on a hall with ticks enough for them: 256 and 1 differ.
    let mut hall = four::site();
    hall.h = 300;
    fs::write(folder.join("site.bin"), encode(&hall)).unwrap();
    assert_eq!(run(&[&route(1, 39), &route(1, 40), &route(0, 1)]), "0 0 5\n18 0 0\n0 0 5\n", "dwells 295, 296 and 1 of H 300");
}

/// Request 5, by its text: what is printed is written out here.
#[test]
fn margin_between_tugs() {
    let folder = folder("margin");
    let site_bin = folder.join("site.bin");
    let route = |tug: u8, tick: u8| (34, vec![tug, 0, 0, 0, tick, 0, 4, 0, 0]);
    let close = |holder: u8, cell: u8, tick: u8| (32, vec![holder, 0, cell, 0, tick, 0, tick]);
    let post = || (35, vec![]);
    let run = |margin: usize, fields: &[(u8, Vec<u8>)]| output_of(&folder, &four::with_margin(margin), fields);
    // Tug 7 is posted as in case A. Tug 8 may not start beside it, and a tick later it waits for one tick.
    let tugs = |tick: u8| [route(7, 0), post(), route(8, tick), post()];
    assert_eq!(run(0, &tugs(1)), "0 0 5\n0 1 0\n18 1 0\n12 1 0\n");
    assert_eq!(run(0, &tugs(2)), "0 0 5\n0 1 0\n0 1 8\n0 2 0\n");
    assert_eq!(run(1, &tugs(2)), "0 0 5\n0 1 0\n18 1 0\n12 1 0\n");
    assert_eq!(run(1, &tugs(3)), "0 0 5\n0 1 0\n0 1 9\n0 2 0\n");
    assert_eq!(run(4, &tugs(6)), "0 0 5\n0 1 0\n0 1 12\n0 2 0\n");
    assert_eq!(run(20, &tugs(6)), "0 0 5\n0 1 0\n18 1 0\n12 1 0\n");
    // Both have used cell 1, at 1 to 3 and at 5 to 7: it can't be closed next to them. Closures may touch.
    let closes = [close(200, 1, 4), close(200, 1, 8), close(200, 1, 9), close(201, 1, 10)];
    assert_eq!(run(1, &[&tugs(3)[..], &closes[..]].concat()), "0 0 5\n0 1 0\n0 1 9\n0 2 0\n17 2 0\n17 2 0\n0 3 0\n0 4 0\n");
    assert_eq!(run(21, &tugs(2)), "3 0 0\n");
    // The worked hall's file without the margin.
    fs::write(&site_bin, with_head(&four::bytes(), 6).unwrap()).unwrap();
    assert_eq!(output(&folder, &worked_script()), "3 0 0\n");
}

/// A hall of so many cells. State 0 is in cell 256, state 1 in cell 0, and motion 0 leads from the one to the other.
fn large_hall(c: usize, h: usize) -> Site {
    let states = [256, 0].map(|cell| State { cell, speed: 0 }).to_vec();
    let sweeps = vec![Sweep { cell: 256, a: 0, b: 1 }, Sweep { cell: 0, a: 1, b: 1 }];
    Site { h, c, margin: 0, states, motions: vec![Motion { from: 0, to: 1, d: 1, sweeps }], centres: vec![] }
}

/// Request 6, by its text: what is printed is written out here.
#[test]
fn halls_above_255_cells() {
    let folder = folder("halls");
    let hall = large_hall(640, 101);
    let close = |holder: u8, cell: [u8; 2], first: u8, last: u8| (32, vec![holder, cell[0], cell[1], 0, first, 0, last]);
    let route = |tug: u8, state: u8, tick: u8, goal: u8| (34, vec![tug, 0, state, 0, tick, 0, goal, 0, 0]);
    let run = |fields: &[(u8, Vec<u8>)]| output_of(&folder, &hall, fields);
    // Cells 256 and 0 have closures of their own; the last cell is 639.
    let closes = [close(200, [1, 0], 0, 50), close(201, [0, 0], 0, 40), close(202, [1, 0], 50, 60), close(202, [2, 127], 0, 101)];
    assert_eq!(run(&closes), "0 1 0\n0 2 0\n17 2 0\n0 3 0\n");
    assert_eq!(run(&[close(200, [2, 128], 0, 0), close(200, [4, 0], 0, 0), close(200, [255, 255], 0, 0)]), "10 0 0\n10 0 0\n10 0 0\n");
    // A tug leaves cell 256 when it is open, and stands in the way there and in cell 0, not in cell 512.
    let tug = [route(7, 0, 50, 1), route(7, 0, 51, 1), (35, vec![]), close(203, [1, 0], 52, 52), close(203, [0, 0], 52, 52), close(203, [2, 0], 52, 52)];
    assert_eq!(run(&[&closes[..2], &tug[..]].concat()), "0 1 0\n0 2 0\n18 2 0\n0 2 52\n0 3 0\n17 3 0\n17 3 0\n0 4 0\n");
    // Cell 256 is open again, and cell 0 is not.
    let opened = [(33, vec![200]), route(7, 0, 30, 0), route(7, 1, 30, 1)];
    assert_eq!(run(&[&closes[..2], &opened[..]].concat()), "0 1 0\n0 2 0\n0 3 0\n0 3 30\n18 3 0\n");
    // The field as it was before, and other lengths.
    let long = [200, 0, 3, 0, 0, 0, 8, 0];
    for len in [5, 6, 8] {
        assert_eq!(run(&[(32, long[..len].to_vec()), (32, long[..7].to_vec())]), "99 0 0\n", "a close field of {len} bytes");
    }
    assert_eq!(run(&[(32, long[..7].to_vec())]), "0 1 0\n");
    // Boards of 65,284 and 65,924 bytes, and of 65,004 and 66,004; C 1,001.
    for (c, h, line) in [(640, 101, "0 0 0\n"), (640, 102, "7 0 0\n"), (1_000, 64, "0 0 0\n"), (1_000, 65, "7 0 0\n"), (1_001, 12, "3 0 0\n")] {
        assert_eq!(output_of(&folder, &large_hall(c, h), &[]), line, "{c} cells, H {h}");
    }
    // The last cell of the largest hall.
    let last = [close(200, [3, 231], 64, 64), close(201, [3, 232], 64, 64), close(201, [3, 231], 64, 64), close(201, [0, 231], 64, 64)];
    assert_eq!(output_of(&folder, &large_hall(1_000, 64), &last), "0 1 0\n10 1 0\n17 1 0\n0 2 0\n");
    // The worked hall's file as it was before.
    let old = four::hex("01 0006 000C 04 0005 00, 02 0002 00 00, 02 0002 01 01, 02 0002 01 00, 02 0002 02 01, 02 0002 03 00");
    fs::write(folder.join("site.bin"), old).unwrap();
    assert_eq!(output(&folder, &worked_script()), "3 0 0\n");
}

/// Request 7, by its text: a site with a centre for each cell is a site as any other, and with another number of them it is refused.
#[test]
fn sites_with_centres() {
    let folder = folder("centres");
    let site_bin = folder.join("site.bin");
    let centre = |x: u16| [&[4, 0, 4][..], &x.to_be_bytes(), &[1, 244]].concat();
    for (n, lines) in [(0, "0 1 0\n0 1 10\n0 2 0\n"), (1, "4 0 0\n"), (3, "4 0 0\n"), (4, "0 1 0\n0 1 10\n0 2 0\n"), (5, "4 0 0\n"), (8, "4 0 0\n")] {
        let centres: Vec<u8> = (0..n).flat_map(|k| centre(1_000 * k)).collect();
        fs::write(&site_bin, [four::bytes(), centres].concat()).unwrap();
        assert_eq!(output(&folder, &worked_script()), lines, "{n} centres");
        assert_eq!(output(&folder, &[]), if lines.starts_with('4') { lines } else { "0 0 0\n" }, "{n} centres and an empty script");
    }
    // Before the last motion, of 5 bytes, and with tag 5.
    let (file, centres) = (four::bytes(), (0..4).flat_map(centre).collect::<Vec<u8>>());
    let five: Vec<u8> = (0..4).flat_map(|k| [&[4, 0, 5], &centre(k)[3..], &[0]].concat()).collect();
    let tag_5: Vec<u8> = centres.chunks(7).flat_map(|field| [&[5], &field[1..]].concat()).collect();
    for wrong in [[&file[..100], &centres, &file[100..]].concat(), [&file[..], &five].concat(), [&file[..], &tag_5].concat()] {
        fs::write(&site_bin, &wrong).unwrap();
        assert_eq!(output(&folder, &worked_script()), "4 0 0\n");
    }
    // The script has no field for pictures.
    fs::write(&site_bin, four::drawn_bytes()).unwrap();
    assert_eq!(output(&folder, &[36, 0, 3, 0, 0, 0]), "99 0 0\n");
    // Whatever the script is, the lines are those of the site without centres.
    let mut rng = Rng::new(6);
    for run in 0..40 {
        let size = rng.pick(&[Size::Row, Size::Small]);
        let without = Site { centres: vec![], ..gen::site(&mut rng, size) };
        let script = gen::script(&mut rng, &without);
        let with_centres = Site { centres: gen::centres(&mut rng, without.c), ..without.clone() };
        let lines = [without, with_centres].map(|site| {
            fs::write(&site_bin, encode(&site)).unwrap();
            output(&folder, &script)
        });
        assert_eq!(lines[0], lines[1], "script {run}");
    }
}

/// Scripts on halls of 640 cells with the longest horizon that the areas have room for.
#[test]
fn scripts_for_640_cells() {
    let folder = folder("works");
    let mut rng = Rng::new(4);
    let (runs, mut cells, mut alike) = (60, 0, 0);
    for run in 0..runs {
        let row = Site { h: 101, ..gen::site(&mut rng, Size::Row) };
        let site = gen::spread(&mut rng, row, 640);
        let (file, script) = (encode(&site), gen::script(&mut rng, &site));
        agree(&folder, Some(&file), &script, &format!("script {run}"));
        let lines = day::transcript(Some(&file), &script);
        cells += usize::from(lines.lines().any(|line| line.starts_with("0 ")));
        alike += usize::from(lines != day::transcript(Some(&file), &without(&script, 32, 1..2)));
    }
    assert!(cells * 2 >= runs, "only {cells} of {runs} scripts have a call that is accepted");
    assert!(alike * 10 >= runs, "only {alike} of {runs} scripts print something else without the high bytes of their closes' cells");
}

/// A script that comes slowly is waited for: it is neither empty nor cut.
#[test]
fn late_script() {
    let folder = folder("late");
    fs::write(folder.join("site.bin"), four::bytes()).unwrap();
    for script in [&[][..], &worked_script()[..10]] {
        let mut child = start(&folder, Stdio::piped());
        let mut input = child.stdin.take().unwrap();
        for byte in script {
            std::thread::sleep(Duration::from_millis(20));
            assert!(child.try_wait().unwrap().is_none(), "the day program ends before its script");
            input.write_all(&[*byte]).unwrap();
        }
        std::thread::sleep(Duration::from_millis(100));
        assert!(child.try_wait().unwrap().is_none(), "the day program ends before its script");
        drop(input);
        assert_eq!(printed(child), if script.is_empty() { "0 0 0\n" } else { "0 1 0\n" });
    }
}

/// A script that cannot be read is no empty one.
#[test]
fn unreadable_script() {
    let folder = folder("unreadable");
    fs::write(folder.join("site.bin"), four::bytes()).unwrap();
    let of_folder = fs::File::open(&folder).unwrap();
    assert_eq!(printed(start(&folder, of_folder.into())), "99 0 0\n", "a folder");
    let write_only = fs::File::create(folder.join("written")).unwrap();
    assert_eq!(printed(start(&folder, write_only.into())), "99 0 0\n", "a file open for writing");
    // Not with the stand-in: a program in Rust has the null device in place of an input that is closed.
    #[cfg(not(feature = "standin"))]
    {
        let closed = Command::new("sh")
            .args(["-c", "exec \"$0\" <&-"])
            .arg(program())
            .current_dir(&folder)
            .stdout(Stdio::piped())
            .stderr(Stdio::piped())
            .spawn()
            .unwrap();
        assert_eq!(printed(closed), "99 0 0\n", "closed");
    }
}

#[test]
fn every_cut_of_the_worked_example() {
    let folder = folder("cuts");
    let (site, script) = (four::bytes(), worked_script());
    for n in 0..=script.len() {
        agree(&folder, Some(&site), &script[..n], &format!("the first {n} bytes"));
    }
}

#[test]
fn site_files() {
    let folder = folder("sites");
    let (site, script) = (four::bytes(), worked_script());
    agree(&folder, None, &script, "no site.bin");
    agree(&folder, Some(&[]), &script, "an empty site.bin");
    agree(&folder, Some(&site[..115]), &script, "a cut site.bin");
    for len in [65_536, 65_537, 65_538, 131_072, 131_072 + 100, 200_000] {
        let mut long = site.clone();
        long.resize(len, 0);
        agree(&folder, Some(&long), &script, &format!("a site.bin of {len} bytes"));
    }
    // Boards of 65,536 bytes and one row more, and working areas of 16,384 words and one row more.
    for (h, c, s) in [
        (963, 68, 2),
        (964, 68, 2),
        (1_000, 65, 2),
        (1_000, 66, 2),
        (127, 4, 128),
        (128, 4, 128),
        (127, 4, 129),
        (63, 4, 256),
        (64, 4, 256),
        (63, 255, 256),
        (101, 640, 160),
        (101, 640, 161),
        (102, 640, 5),
        (64, 1_000, 5),
        (65, 1_000, 5),
        (11, 1_000, 1_280),
        (1_000, 1_000, 1_280),
    ] {
        let mut wide = four::site();
        (wide.h, wide.c) = (h, c);
        while wide.states.len() < s {
            wide.states.push(wide.states[0]);
        }
        agree(&folder, Some(&encode(&wide)), &script, &format!("H {h}, {c} cells, {s} states"));
    }
    // The longest file allowed, with an H for which the areas suffice.
    let mut rng = Rng::new(3);
    let mut full = gen::site(&mut rng, Size::Large);
    while encode(&full).len() != 65_536 {
        full = gen::site(&mut rng, Size::Large);
    }
    full.h = (16_384 / full.states.len() - 1).min(60);
    let script = gen::script(&mut rng, &full);
    agree(&folder, Some(&encode(&full)), &script, "a site.bin of 65,536 bytes");
    fs::remove_file(folder.join("site.bin")).unwrap();
    fs::create_dir(folder.join("site.bin")).unwrap();
    assert_eq!(output(&folder, &script), day::transcript(None, &script), "a folder in place of site.bin");
}

#[test]
fn random_scripts() {
    let seed = std::env::var("SEED").map_or(1, |text| text.parse().expect("SEED is no number"));
    let runs = std::env::var("SCRIPTS").map_or(300, |text| text.parse().expect("SCRIPTS is no number"));
    writeln!(std::io::stderr(), "day: seed {seed}, {runs} scripts").unwrap();
    let folder = folder("random");
    let mut rng = Rng::new(seed);
    let (mut dwells, mut margins) = (0, 0);
    for run in 0..runs {
        let size = rng.pick(&[Size::Tiny, Size::Row, Size::Row, Size::Small, Size::Small, Size::Middle]);
        let worked = |rng: &mut Rng| if rng.percent(40) { four::with_centres(gen::any_margin(rng)) } else { four::with_margin(gen::any_margin(rng)) };
        let site = if rng.percent(40) { worked(&mut rng) } else { gen::site(&mut rng, size) };
        let script = gen::script(&mut rng, &site);
        let mut file = encode(&site);
        if rng.percent(5) {
            let fault = rng.range(2, 6) as u8;
            file = gen::damaged(&mut rng, &site, &[fault]);
        }
        agree(&folder, Some(&file), &script, &format!("seed {seed}, script {run}"));
        let lines = day::transcript(Some(&file), &script);
        dwells += usize::from(lines != day::transcript(Some(&file), &without_dwells(&script)));
        let damaged = file != encode(&site);
        let without_margin = encode(&Site { margin: 0, ..site });
        margins += usize::from(!damaged && lines != day::transcript(Some(&without_margin), &script));
    }
    // A short run may have few of them.
    assert!(runs < 300 || margins * 20 >= runs, "only {margins} of {runs} scripts print something else without the margin");
    assert!(runs < 300 || dwells * 20 >= runs, "only {dwells} of {runs} scripts print something else without their dwells");
}

#[test]
fn script_longer_than_any_area() {
    let folder = folder("long");
    let site = four::bytes();
    let mut script = Vec::new();
    let mut rng = Rng::new(5);
    while script.len() < 200_000 {
        match rng.below(4) {
            0 => put(&mut script, 32, &[rng.range(200, 203) as u8, 0, rng.below(4) as u8, 0, 3, 0, rng.range(3, 12) as u8]),
            1 => put(&mut script, 33, &[rng.pick(&[7, 8, 200, 201, 202, 203])]),
            2 => put(&mut script, 34, &[rng.pick(&[7, 8]), 0, 0, 0, 0, 0, rng.pick(&[2, 4]), 0, rng.pick(&[0, 0, 1, 3])]),
            _ => put(&mut script, 35, &[]),
        }
    }
    agree(&folder, Some(&site), &script, "a script of 200,000 bytes");
}

/// A stack of 1.5 MiB is enough, as docs/FORMATS.md says: for a posted light of 999 motions, to and fro until the goal's cell is open. 1 MiB
/// is not, so that this test could fail.
#[cfg(not(feature = "standin"))]
#[test]
fn stack_of_1_5_mib() {
    let folder = folder("stack");
    let motion = |from, to, cells: [u16; 2]| {
        let sweeps = vec![Sweep { cell: cells[0], a: 0, b: 1 }, Sweep { cell: cells[1], a: 1, b: 1 }];
        Motion { from, to, d: 1, sweeps }
    };
    let states = [(0, 1), (1, 1), (2, 0)].map(|(cell, speed)| State { cell, speed }).to_vec();
    let motions = vec![motion(0, 1, [0, 1]), motion(1, 0, [1, 0]), motion(0, 2, [0, 2])];
    let site = Site { h: 1_000, c: 3, margin: 0, states, motions, centres: vec![] };
    fs::write(folder.join("site.bin"), encode(&site)).unwrap();
    let mut script = Vec::new();
    put(&mut script, 32, &[200, 0, 2, 0, 0, 3, 230]);
    put(&mut script, 34, &[7, 0, 0, 0, 0, 0, 2, 0, 0]);
    put(&mut script, 35, &[]);
    fs::write(folder.join("script"), &script).unwrap();
    let run = |kib: usize| {
        let limited = format!("ulimit -s {kib} && exec \"$0\" <script");
        Command::new("sh").args(["-c", &limited]).arg(program()).current_dir(&folder).output().unwrap()
    };
    let done = run(1_536);
    assert_eq!((String::from_utf8(done.stdout).unwrap().as_str(), done.status.success()), ("0 1 0\n0 1 999\n0 2 0\n", true));
    assert!(!run(1_024).status.success());
}
