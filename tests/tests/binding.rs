//! The Rust package in bindings/rust: its desk against the plain board, and a stranger's way to it.

#![cfg(not(feature = "standin"))]

use dispatch::{calls, Desk, Drawn, Granted, Picture, Place, Refusal, Sizes, Trip, Word};
use dispatch_tests::gen::{self, Call, Caller, Rng, Size};
use dispatch_tests::literal::{self, encode, Light, Site, Step};
use dispatch_tests::plain_board::PlainBoard;
use dispatch_tests::{c, docs, four, literal_desk};
use std::fs;
use std::path::{Path, PathBuf};
use std::process::{Command, Output};

fn number<T>(result: &Result<T, Refusal>) -> u8 {
    result.as_ref().err().map_or(0, |refusal| refusal.number())
}

/// What the head of a site's file says.
fn sizes(site: &Site) -> Sizes {
    Sizes { horizon: site.h as u16, cells: site.c as u16, states: site.states.len() as u16, margin: site.margin as _ }
}

/// One call of a list through the package, and through the plain board; gives a granted light.
fn turn(desk: &mut Desk, model: &mut PlainBoard, site: &Site, call: &Call) -> (u8, Option<Vec<u8>>) {
    match call {
        &Call::Route { tug, start, tick, goal, dwell, .. } => {
            let granted = desk.route(Trip { tug, start, tick, goal, dwell });
            let (wanted, light) = model.route(tug, start, tick, goal, dwell, site.output_len(), site.states.len() * (site.h + 1));
            assert_eq!(number(&granted), wanted.number, "{call:?}");
            if let Ok(granted) = &granted {
                assert_eq!(*granted, Granted { light, arrival: wanted.arrival as u16 });
            }
            (wanted.number, granted.ok().map(|granted| granted.light))
        }
        Call::Audit { light } => (both(&desk.audit(light), model.audit(light).number, call), None),
        Call::Post { light } => (both(&desk.post(light), model.post(light).number, call), None),
        &Call::Close { holder, cell, first, last } => {
            (both(&desk.close(holder, cell, first..=last), model.close(holder, cell, first, last).number, call), None)
        }
        &Call::Withdraw { holder } => (both(&desk.withdraw(holder), model.withdraw(holder).number, call), None),
        &Call::Interval { cell, .. } => (number(&desk.intervals(cell)), None),
        Call::Draw { light, step, frame } => (pictured(desk, light, *step, *frame), None),
        Call::Open => panic!("no list opens a board"),
    }
}

/// A draw through the package, and by the literal reading, whose places and shares are in sixteenths.
fn pictured(desk: &Desk, light: &[u8], step: u16, frame: u8) -> u8 {
    let float = |sixteenths: u32| sixteenths as f32 / 16.0;
    let place = |(x, y)| Place { x: float(x), y: float(y) };
    let wanted = match literal_desk::picture(desk.site(), light, step, frame) {
        Err(number) => Err(Refusal::of(number).unwrap()),
        Ok(literal::Picture::OffFloor) => Ok(Picture::OffFloor),
        Ok(literal::Picture::Standing(at)) => Ok(Picture::Standing(place(at))),
        Ok(literal::Picture::Rolling(at, share)) => Ok(Picture::Rolling(place(at), float(share))),
    };
    let drawn = desk.draw(light, step, frame);
    assert_eq!(drawn, wanted, "step {step}, frame {frame} of {light:?}");
    assert_eq!(calls::draw(desk.site(), light, step, frame).picture(), wanted);
    number(&drawn)
}

fn both(result: &Result<(), Refusal>, wanted: u8, call: &Call) -> u8 {
    assert_eq!(number(result), wanted, "{call:?}");
    wanted
}

/// The desk's board, edition, holders and intervals are those of the plain board.
fn compare(desk: &Desk, model: &PlainBoard, site: &Site) {
    let bytes = model.bytes();
    assert_eq!(desk.board(), bytes);
    assert_eq!(desk.edition().to_be_bytes(), bytes[..4]);
    for cell in 0..=site.c {
        let row = bytes[4..].chunks(site.h + 1).nth(cell);
        let holders: Vec<Option<u8>> = (0..=site.h + 1).map(|tick| desk.holder(cell as u16, tick as u16)).collect();
        let wanted: Vec<Option<u8>> = (0..=site.h + 1).map(|tick| row.and_then(|row| row.get(tick).copied())).collect();
        assert_eq!(holders, wanted);
        let free = |_: usize, tick: usize| row.is_some_and(|row| site.around(tick).all(|at| row[at] == 0));
        let intervals = desk.intervals(cell as u16);
        match row {
            Some(_) => assert_eq!(intervals.unwrap(), site.intervals(&free, cell).into_iter().map(|(first, last)| first..=last).collect::<Vec<_>>()),
            None => assert_eq!(intervals, Err(Refusal::OutOfRange)),
        }
    }
}

/// Lists of calls from an opened board. Areas have the right sizes by themselves, so 14 does not occur, and nor does 15 on so short a list.
#[test]
fn desk_and_plain_board_agree() {
    let mut rng = Rng::new(11);
    let mut seen = [0; 21];
    let mut drawn = [0; 21];
    for _ in 0..300 {
        let size = rng.pick(&[Size::Tiny, Size::Row, Size::Row, Size::Small]);
        let site = gen::site(&mut rng, size);
        let file = encode(&site);
        let mut desk = Desk::open(&file).unwrap();
        let mut model = PlainBoard::new(site.clone());
        let mut caller = Caller { site: &site, file: &file, lights: vec![] };
        for _ in 0..40 {
            let call = caller.listed(&mut rng, desk.board());
            let (number, light) = turn(&mut desk, &mut model, &site, &call);
            seen[number as usize] += 1;
            caller.lights.extend(light);
            assert_eq!(desk.board(), model.bytes());
            let draw = caller.draw(&mut rng, desk.board());
            drawn[turn(&mut desk, &mut model, &site, &draw).0 as usize] += 1;
        }
        compare(&desk, &model, &site);
        assert_eq!(Desk::resume(&file, desk.board()).as_ref(), Ok(&desk));
        assert_eq!((desk.site(), desk.sizes()), (&file[..], sizes(&site)));
    }
    for number in [0, 8, 9, 10, 11, 12, 13, 16, 17, 18] {
        assert!(seen[number] >= 20, "number {number} occurs only {} times", seen[number]);
    }
    for number in [0, 8, 10, 20] {
        assert!(drawn[number] >= 200, "number {number} of a draw occurs only {} times", drawn[number]);
    }
}

/// The worked hall with centres through the package, by hand; and what it makes of words that the archive does not give.
#[test]
fn pictures() {
    let mut desk = Desk::open(&four::drawn_bytes()).unwrap();
    desk.close(200, 3, 0..=8).unwrap();
    let light = desk.route(Trip { tug: 7, start: 0, tick: 0, goal: 4, dwell: 0 }).unwrap().light;
    assert_eq!(light, four::hex(four::B_LIGHT));
    let at = |x, y| Place { x, y };
    assert_eq!(desk.draw(&light, 0, 9), Ok(Picture::Standing(at(0.0, 0.0))));
    assert_eq!(desk.draw(&light, 1, 1), Ok(Picture::Rolling(at(62.5, 0.0), 0.0625)));
    assert_eq!(desk.draw(&light, 2, 3), Ok(Picture::Rolling(at(1187.5, 93.75), 0.1875)));
    assert_eq!((desk.draw(&light, 4, dispatch::LAST_FRAME), desk.draw(&light, 65_535, 0)), (Ok(Picture::OffFloor), Ok(Picture::OffFloor)));
    for step in [0, 4] {
        assert_eq!(desk.draw(&light, step, dispatch::LAST_FRAME + 1), Err(Refusal::NoPicture));
    }
    assert_eq!((desk.draw(&light[..37], 0, 0), desk.draw(&[], 0, 17)), (Err(Refusal::LightLayout), Err(Refusal::LightLayout)));
    assert_eq!(Desk::open(&four::bytes()).unwrap().draw(&light, 0, 0), Err(Refusal::NoPicture));
    assert_eq!(Refusal::NoPicture.to_string(), "the frame is above 16, or the site has no centres (20)");
    let drawn = calls::draw(desk.site(), &light, 1, 1);
    assert_eq!((drawn.word, drawn.x, drawn.y, drawn.share), (Word(2 << 8), 62.5, 0.0, 0.0625));
    let of = |word| Drawn { word: Word(word), x: 1.0, y: 2.0, share: 0.5 };
    assert_eq!(
        [of(0), of(1 << 8), of(2 << 8)].map(Drawn::picture),
        [Picture::OffFloor, Picture::Standing(at(1.0, 2.0)), Picture::Rolling(at(1.0, 2.0), 0.5)].map(Ok)
    );
    for unknown in [3 << 8, 21] {
        assert!(std::panic::catch_unwind(|| of(unknown).picture()).is_err(), "{unknown}");
    }
}

/// The steps of granted lights, of lights with any bytes and of damaged ones are those of the literal reading, which has them where a light keeps
/// its layout.
#[test]
fn steps_of_lights() {
    let mut rng = Rng::new(14);
    let (mut lights, mut others) = (0, 0);
    for _ in 0..2_000 {
        let site = gen::site(&mut rng, Size::Row);
        let board = gen::board(&mut rng, &site);
        let caller = Caller { site: &site, file: &encode(&site), lights: vec![] };
        for _ in 0..20 {
            if let Call::Audit { light } | Call::Post { light } = caller.any(&mut rng, &board) {
                let read = Light::read(&light).map(|light| light.steps.into_iter().map(as_step).collect::<Vec<_>>());
                *(if read.is_some() { &mut lights } else { &mut others }) += 1;
                assert_eq!(dispatch::steps(&light), read.ok_or(Refusal::LightLayout), "{light:?}");
            }
        }
    }
    assert!(lights >= 1_000 && others >= 1_000, "{lights} lights, {others} others");
    let longest = |steps| Light { edition: 0, tug: 7, start: 0, tick: 0, goal: 0, arrival: 0, dwell: 0, steps: vec![Step::Move(256); steps] }.encode();
    assert_eq!(dispatch::steps(&longest(1_000)), Ok(vec![dispatch::Step::Motion(256); 1_000]));
    assert_eq!(dispatch::steps(&longest(1_001)), Err(Refusal::LightLayout));
}

fn as_step(step: Step) -> dispatch::Step {
    match step {
        Step::Wait(n) => dispatch::Step::Wait(n),
        Step::Move(k) => dispatch::Step::Motion(k),
    }
}

/// Routes and audits of one desk from eight threads at a time, each over its own trips, answer as one after the other do.
#[test]
fn threads_share_a_desk() {
    let mut rng = Rng::new(13);
    let site = gen::site(&mut rng, Size::Middle);
    let file = encode(&site);
    let desk = Desk::resume(&file, &gen::board(&mut rng, &site)).unwrap();
    let last = site.states.len() as u16 - 1;
    let trips: Vec<Trip> = (0..400).map(|k| Trip { tug: 1 + k as u8 % 199, start: k % last, tick: k % 7, goal: last - k % last, dwell: k % 3 }).collect();
    let alone: Vec<_> = trips.iter().map(|&trip| desk.route(trip)).collect();
    assert!(alone.iter().filter(|answer| answer.is_ok()).count() >= 20, "few routes are granted");
    std::thread::scope(|scope| {
        for first in 0..8 {
            let (desk, trips, alone) = (&desk, &trips, &alone);
            scope.spawn(move || {
                for k in (0..trips.len()).map(|k| (k + 50 * first) % trips.len()) {
                    let answer = desk.route(trips[k]);
                    assert_eq!(answer, alone[k]);
                    assert!(answer.is_err() || desk.audit(&answer.unwrap().light).is_ok());
                }
            });
        }
    });
}

/// A refused site is refused with its own number, whatever its head says, and so is a board of a wrong length.
#[test]
fn refused_sites_and_boards() {
    let mut rng = Rng::new(12);
    for _ in 0..2_000 {
        let site = gen::site(&mut rng, Size::Tiny);
        let fault = rng.range(1, 6) as u8;
        let file = gen::damaged(&mut rng, &site, &[fault]);
        assert_eq!(number(&Desk::open(&file)), Site::read(&file).err().unwrap_or(0));
        let board = vec![0; site.board_len()];
        let wanted = Site::read(&file).map_or_else(|number| number, |read| if read.board_len() == board.len() { 0 } else { 7 });
        assert_eq!(number(&Desk::resume(&file, &board)), wanted);
    }
    let file = four::bytes();
    for len in [0, 55, 57] {
        assert_eq!(Desk::resume(&file, &vec![0; len]), Err(Refusal::BoardLength));
    }
    let text = Desk::open(&file[..115]).unwrap_err().to_string();
    assert_eq!(text, "a field of the site file runs past the file's end (2)");
}

/// Cargo in the repository's folder, as a stranger calls it.
fn cargo(words: &[&str]) -> Output {
    let mut command = Command::new(env!("CARGO"));
    for setting in ["CARGO_TARGET_DIR", "CARGO_ENCODED_RUSTFLAGS", "RUSTFLAGS", "DISPATCH_LIB_DIR"] {
        command.env_remove(setting);
    }
    command.current_dir(c::root()).args(words).output().expect("cargo does not start")
}

fn done(output: Output) -> String {
    assert!(output.status.success(), "{}", String::from_utf8_lossy(&output.stderr));
    String::from_utf8(output.stdout).unwrap()
}

/// README's program in Rust in a new package of an edition, made with README's commands.
fn new_package(edition: &str) -> PathBuf {
    let readme = docs::text("README.md");
    let name = format!("target/rust/first{edition}");
    let folder = c::root().join(&name);
    let _ = fs::remove_dir_all(&folder);
    fs::create_dir_all(folder.parent().unwrap()).unwrap();
    let manifest = format!("{name}/Cargo.toml");
    done(cargo(&["new", "--quiet", "--vcs", "none", "--edition", edition, &name]));
    done(cargo(&["add", "--quiet", "--offline", "--manifest-path", &manifest, "--path", "bindings/rust"]));
    fs::write(folder.join("src/main.rs"), docs::block(&readme, "rust", "fn main")).unwrap();
    folder
}

#[test]
fn new_packages() {
    let readme = docs::text("README.md");
    let shown = docs::block(&readme, "text", "$ cargo new first_rust");
    let wanted: String = shown.lines().skip_while(|line| !line.contains("cargo run")).skip(1).map(|line| format!("{line}\n")).collect();
    for edition in ["2021", "2024"] {
        let folder = new_package(edition);
        let printed = done(cargo(&["run", "--quiet", "--offline", "--manifest-path", folder.join("Cargo.toml").to_str().unwrap()]));
        assert_eq!(printed, wanted, "edition {edition}");
        fs::remove_dir_all(&folder).unwrap();
    }
}

/// The package itself as edition 2024, with every warning an error: what a user who copies it may do.
#[test]
fn package_as_edition_2024() {
    let folder = c::root().join("target/rust");
    fs::create_dir_all(&folder).unwrap();
    let built = Command::new(std::env::var_os("RUSTC").unwrap_or("rustc".into()))
        .args(["--edition", "2024", "--crate-type", "rlib", "--crate-name", "dispatch", "-D", "warnings", "bindings/rust/src/lib.rs", "--out-dir"])
        .arg(&folder)
        .current_dir(c::root())
        .output()
        .unwrap();
    done(built);
}

/// What the build of the package says where the archive is looked for in this folder, and where it fails.
fn build_with(folder: &str) -> String {
    let target = Path::new(env!("CARGO_TARGET_TMPDIR")).join("archive_missing");
    let built = Command::new(env!("CARGO"))
        .args(["build", "--offline", "--manifest-path"])
        .arg(c::root().join("bindings/rust/Cargo.toml"))
        .arg("--target-dir")
        .arg(&target)
        .env("DISPATCH_LIB_DIR", folder)
        .output()
        .unwrap();
    if built.status.success() {
        String::new()
    } else {
        String::from_utf8(built.stderr).unwrap()
    }
}

/// Without the archive, the build says what is missing and how to make it.
#[test]
fn archive_missing() {
    let empty = Path::new(env!("CARGO_TARGET_TMPDIR")).join("empty");
    fs::create_dir_all(&empty).unwrap();
    let said = build_with(empty.to_str().unwrap());
    assert!(said.contains("empty/libdispatch_c.a") && said.contains("`rt lib` in crates/dispatch_c") && said.contains("DISPATCH_LIB_DIR"), "{said}");
    let said = build_with("crates/dispatch_c/out");
    assert!(said.contains("DISPATCH_LIB_DIR is crates/dispatch_c/out; it has to be an absolute path."), "{said}");
    let there = fs::canonicalize(c::archive().parent().unwrap()).unwrap();
    for found in ["", there.to_str().unwrap()] {
        assert_eq!(build_with(found), "", "DISPATCH_LIB_DIR={found}");
    }
}
