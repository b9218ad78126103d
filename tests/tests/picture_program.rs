//! The program that writes a moving picture, bindings/rust/examples/picture: which tugs and closures are in it, where and at which ticks, by
//! numbers worked out here; what it says and how it ends where there is no picture; and `./day --picture`.

#![cfg(not(feature = "standin"))]

use dispatch_tests::literal::put;
use dispatch_tests::{c, docs, programs};
use std::collections::BTreeMap;
use std::fs;
use std::os::unix::fs::symlink;
use std::path::{Path, PathBuf};
use std::process::Command;
use std::sync::OnceLock;

/// The program, built as a stranger would, but in a folder of the tests.
fn program() -> &'static Path {
    static BUILT: OnceLock<PathBuf> = OnceLock::new();
    BUILT.get_or_init(|| {
        let target = Path::new(env!("CARGO_TARGET_TMPDIR")).join("picture_program");
        let mut command = Command::new(env!("CARGO"));
        for setting in ["CARGO_ENCODED_RUSTFLAGS", "RUSTFLAGS", "DISPATCH_LIB_DIR"] {
            command.env_remove(setting);
        }
        command.args(["build", "--quiet", "--offline", "--release", "--example", "picture", "--manifest-path"]);
        let built = command.arg(c::root().join("bindings/rust/Cargo.toml")).arg("--target-dir").arg(&target).output().unwrap();
        assert!(built.status.success() && built.stderr.is_empty(), "{}", String::from_utf8_lossy(&built.stderr));
        target.join("release/examples/picture")
    })
}

/// A command that has ended: its status and its two outputs.
#[derive(Debug)]
struct Done {
    status: Option<i32>,
    out: String,
    err: String,
}

fn finish(command: &mut Command) -> Done {
    let done = programs::start(command.stdin(std::process::Stdio::null())).wait_with_output().unwrap();
    Done { status: done.status.code(), out: String::from_utf8(done.stdout).unwrap(), err: String::from_utf8(done.stderr).unwrap() }
}

/// A folder with a site and a script.
struct Shift {
    folder: PathBuf,
}

impl Shift {
    fn new(name: &str, site: &[u8], script: &[u8]) -> Shift {
        let shift = Shift { folder: Path::new(env!("CARGO_TARGET_TMPDIR")).join("picture_shifts").join(name) };
        let _ = fs::remove_dir_all(&shift.folder);
        fs::create_dir_all(&shift.folder).unwrap();
        fs::write(shift.file("site.bin"), site).unwrap();
        fs::write(shift.file("script"), script).unwrap();
        shift
    }

    fn file(&self, name: &str) -> PathBuf {
        self.folder.join(name)
    }

    fn names(&self) -> Vec<String> {
        let mut names: Vec<String> = fs::read_dir(&self.folder).unwrap().map(|entry| entry.unwrap().file_name().into_string().unwrap()).collect();
        names.sort();
        names
    }

    fn run(&self) -> Done {
        finish(Command::new(program()).arg(&self.folder))
    }

    /// The picture that is written now, and what is said.
    fn picture(&self) -> (Element, String) {
        let done = self.run();
        assert!(done.status == Some(0) && done.out.is_empty(), "{done:?}");
        assert_eq!(self.names(), ["script", "shift.svg", "site.bin"]);
        (Element::read(&fs::read_to_string(self.file("shift.svg")).unwrap()), done.err)
    }

    /// No picture is written: the status, and a line with these words.
    fn refused(&self, status: i32, words: &[&str]) {
        let before = self.names();
        let done = self.run();
        assert!(done.status == Some(status) && done.out.is_empty() && done.err.lines().count() == 1, "{words:?}: {done:?}");
        for word in words {
            assert!(done.err.contains(word), "{done:?} has no {word}");
        }
        assert_eq!(self.names(), before, "{done:?}");
    }
}

/// An element of a file in XML: as much of XML as the pictures use, and anything else is a failure.
#[derive(Debug)]
struct Element {
    name: String,
    attributes: BTreeMap<String, String>,
    children: Vec<Element>,
    text: String,
}

impl Element {
    fn read(text: &str) -> Element {
        let mut rest = text;
        let root = Element::next(&mut rest);
        assert!(rest.trim().is_empty(), "behind the end: {rest}");
        root
    }

    /// Takes one element off the text.
    fn next(rest: &mut &str) -> Element {
        let (tag, behind) = rest.strip_prefix('<').and_then(|rest| rest.split_once('>')).unwrap_or_else(|| panic!("no tag: {rest:.80}"));
        let (tag, empty) = tag.strip_suffix('/').map_or((tag, false), |tag| (tag, true));
        let (name, mut list) = tag.split_once(' ').unwrap_or((tag, ""));
        assert!(!name.is_empty() && name.chars().all(|c| c.is_ascii_alphabetic()), "no name: {tag:.80}");
        let mut element = Element { name: name.to_string(), attributes: BTreeMap::new(), children: vec![], text: String::new() };
        while !list.is_empty() {
            let (name, value) = list.split_once("=\"").unwrap_or_else(|| panic!("no attribute: {list:.80}"));
            let (value, behind) = value.split_once('"').unwrap_or_else(|| panic!("no end: {value:.80}"));
            assert!(name.chars().all(|c| c.is_ascii_alphanumeric() || c == '-') && !value.contains(['<', '&']), "{name} {value:.80}");
            assert!(behind.is_empty() || behind.starts_with(' '), "{behind:.80}");
            assert!(element.attributes.insert(name.to_string(), value.to_string()).is_none(), "{name} twice");
            list = behind.strip_prefix(' ').unwrap_or("");
        }
        *rest = behind;
        if empty {
            return element;
        }
        loop {
            let (text, _) = rest.split_once('<').unwrap_or_else(|| panic!("{name} has no end"));
            assert!(!text.contains(['&', '>']), "{text:.80}");
            element.text += text.trim();
            *rest = &rest[text.len()..];
            if let Some(behind) = rest.strip_prefix(&format!("</{name}>")) {
                *rest = behind;
                return element;
            }
            element.children.push(Element::next(rest));
        }
    }

    /// It and all below it.
    fn all(&self) -> Vec<&Element> {
        let mut all = vec![self];
        all.extend(self.children.iter().flat_map(Element::all));
        all
    }

    /// An attribute.
    fn of(&self, name: &str) -> &str {
        self.attributes.get(name).unwrap_or_else(|| panic!("{} has no {name}", self.name))
    }

    fn number(&self, name: &str) -> f64 {
        self.of(name).parse().unwrap()
    }

    /// The one element with an id.
    fn id(&self, id: &str) -> &Element {
        let found: Vec<&Element> = self.all().into_iter().filter(|element| element.attributes.get("id").is_some_and(|name| name == id)).collect();
        assert_eq!(found.len(), 1, "elements with the id {id}");
        found[0]
    }

    /// The numbers behind ids of this kind, in order.
    fn ids(&self, kind: &str) -> Vec<u32> {
        let ids = self.all().into_iter().filter_map(|element| element.attributes.get("id")?.strip_prefix(kind)?.strip_prefix('-')?.parse().ok());
        let mut ids: Vec<u32> = ids.collect();
        ids.sort();
        ids
    }

    /// The one child of a kind.
    fn child(&self, name: &str) -> &Element {
        let found: Vec<&Element> = self.children.iter().filter(|child| child.name == name).collect();
        assert_eq!(found.len(), 1, "children {name}");
        found[0]
    }

    /// The values of an animation through a shift of so many ticks, each with the moment at which it begins.
    fn list(&self, ticks: u16) -> Vec<(f64, String)> {
        assert_eq!((self.of("dur"), self.of("repeatCount")), (&*format!("{}s", 0.25 * f64::from(ticks)), "indefinite"));
        let values: Vec<&str> = self.of("values").split(';').collect();
        let times: Vec<f64> = self.of("keyTimes").split(';').map(|time| time.parse().unwrap()).collect();
        assert!(times.len() == values.len() && times[0] == 0.0 && times.windows(2).all(|two| two[0] < two[1]), "{times:?} {values:?}");
        times.iter().map(|time| time * f64::from(ticks)).zip(values.iter().map(|value| value.to_string())).collect()
    }
}

/// The worked hall up to another horizon, with these centres.
fn hall(horizon: u16, centres: &[(u16, u16)]) -> Vec<u8> {
    let mut site = fs::read(c::root().join("crates/day/data/site.bin")).unwrap();
    assert_eq!(site[..5], [1, 0, 7, 0, 12]);
    site[3..5].copy_from_slice(&horizon.to_be_bytes());
    for (x, y) in centres {
        put(&mut site, 4, &[x.to_be_bytes(), y.to_be_bytes()].concat());
    }
    site
}

const CENTRES: [(u16, u16); 4] = [(0, 0), (1_000, 0), (2_000, 500), (3_000, 500)];

/// A field of a script.
fn field(tag: u8, holder: Option<u8>, numbers: &[u16]) -> Vec<u8> {
    let mut bytes = Vec::new();
    let value: Vec<u8> = holder.into_iter().chain(numbers.iter().flat_map(|number| number.to_be_bytes())).collect();
    put(&mut bytes, tag, &value);
    bytes
}

fn close(closure: u8, cell: u16, first: u16, last: u16) -> Vec<u8> {
    field(32, Some(closure), &[cell, first, last])
}

fn withdraw(holder: u8) -> Vec<u8> {
    field(33, Some(holder), &[])
}

fn route(tug: u8, start: u16, tick: u16, goal: u16, dwell: u16) -> Vec<u8> {
    field(34, Some(tug), &[start, tick, goal, dwell])
}

fn post() -> Vec<u8> {
    field(35, None, &[])
}

/// A tug at a moment.
type Key = (f64, f64, f64);

/// The list of a tug that is at these places at these ticks: 17 frames from one place to another, and nothing between two that are the same.
fn way(stops: &[Key]) -> Vec<Key> {
    let mut keys = vec![stops[0]];
    for pair in stops.windows(2) {
        let ((t, x, y), (u, v, w)) = (pair[0], pair[1]);
        let frames = if (x, y) == (v, w) { 16..=16 } else { 1..=16 };
        keys.extend(frames.map(|k| f64::from(k) / 16.0).map(|share| (t + share * (u - t), x + share * (v - x), y + share * (w - y))));
    }
    keys
}

/// Holds a tug's list to its way, and the ticks at which it is shown.
fn hold_tug(picture: &Element, tug: u8, ticks: u16, stops: &[Key], shown: &[(u16, &str)]) {
    let group = picture.id(&format!("tug-{tug}"));
    let moves = group.child("animateTransform");
    assert_eq!((moves.of("attributeName"), moves.of("type")), ("transform", "translate"));
    assert!(!moves.attributes.contains_key("calcMode"), "between two frames it goes straight");
    let list: Vec<Key> = moves.list(ticks).into_iter().map(|(tick, place)| place_at(tick, &place)).collect();
    let wanted = way(stops);
    assert_eq!(list.len(), wanted.len(), "tug {tug}: {list:?}");
    for (key, wanted) in list.iter().zip(&wanted) {
        assert!((key.0 - wanted.0).abs() < 1e-4 && (key.1, key.2) == (wanted.1, wanted.2), "tug {tug}: {key:?}, and not {wanted:?}");
    }
    assert_eq!(moves.of("keyTimes").split(';').next_back(), Some("1"), "tug {tug}");
    let (_, x, y) = wanted[0];
    assert_eq!(group.of("transform"), format!("translate({x} {y})"), "tug {tug}");
    assert_eq!(group.child("text").text, tug.to_string());
    assert!(group.child("circle").number("r") > 0.0);
    hold_shown(group, ticks, shown);
}

fn place_at(tick: f64, place: &str) -> Key {
    let (x, y) = place.split_once(' ').unwrap();
    (tick, x.parse().unwrap(), y.parse().unwrap())
}

/// Holds the ticks at which a group comes and goes.
fn hold_shown(group: &Element, ticks: u16, shown: &[(u16, &str)]) {
    let change = group.child("animate");
    assert_eq!((change.of("attributeName"), change.of("calcMode")), ("visibility", "discrete"));
    let list = change.list(ticks);
    let whole: Vec<(u16, &str)> = list.iter().map(|(tick, value)| (tick.round() as u16, &**value)).collect();
    assert_eq!(whole, shown, "{}", group.of("id"));
    assert!(list.iter().all(|(tick, _)| (tick - tick.round()).abs() < 1e-4), "{list:?}");
    assert_eq!(group.of("visibility"), shown[0].1);
}

/// A shift with everything that a script can do. Its ticks are 0 to 39, so that a tick is a fortieth.
fn script() -> Vec<u8> {
    [
        close(200, 3, 0, 8),
        route(7, 0, 0, 4, 1), // waits 5 ticks, M0 M1 M2; arrival 10
        post(),
        post(), // refused
        close(202, 3, 12, 20),
        close(203, 0, 17, 39),
        route(108, 0, 12, 4, 0), // M0, M3 within cell 1, waits 2 ticks, M4 M2; arrival 22
        post(),
        route(30, 2, 30, 2, 4), // no step; unloads from 30 to 34
        post(),
        route(10, 4, 39, 4, 0), // no step, at the last tick
        post(),
        route(11, 2, 36, 2, 0),
        post(),
        withdraw(11),
        close(204, 2, 38, 38),
        withdraw(204),
        withdraw(204),          // refused
        close(200, 2, 38, 38),  // refused, it stands already
        close(205, 0, 20, 20),  // refused, the cell is closed
        route(12, 2, 36, 2, 0), // granted and not posted
        route(0, 2, 36, 2, 0),  // refused
        close(206, 1, 0, 0),
        post(), // refused, the light of tug 12 is from before the close
    ]
    .concat()
}

#[test]
fn everything_that_stands() {
    let shift = Shift::new("everything", &hall(39, &CENTRES), &script());
    let (picture, said) = shift.picture();
    let bytes = fs::metadata(shift.file("shift.svg")).unwrap().len();
    let file = shift.file("shift.svg");
    assert_eq!(said, format!("Picture: {}, {bytes} bytes; tugs: 4, closures: 4; ticks 0 to 39 in 10 seconds, and again\n", file.display()));
    assert_eq!((picture.name.as_str(), picture.of("xmlns")), ("svg", "http://www.w3.org/2000/svg"));
    assert_eq!((picture.ids("cell"), picture.ids("tug"), picture.ids("closure")), (vec![0, 1, 2, 3], vec![7, 10, 30, 108], vec![200, 202, 203, 206]));

    let places = [(0.0, 0.0), (1_000.0, 0.0), (2_000.0, 500.0), (3_000.0, 500.0)];
    let at = |tick: u16, cell: usize| (f64::from(tick), places[cell].0, places[cell].1);
    hold_tug(&picture, 7, 40, &[at(0, 0), at(5, 0), at(7, 1), at(8, 2), at(10, 3), at(11, 3), at(40, 3)][..], &[(0, "visible"), (12, "hidden")]);
    // It stops on cell 1 and waits there, from 14 to 18, which is one stay.
    let stops = [at(0, 0), at(12, 0), at(14, 1), at(18, 1), at(20, 2), at(22, 3), at(40, 3)];
    hold_tug(&picture, 108, 40, &stops, &[(0, "hidden"), (12, "visible"), (23, "hidden")]);
    hold_tug(&picture, 30, 40, &[at(0, 1), at(30, 1), at(34, 1), at(40, 1)], &[(0, "hidden"), (30, "visible"), (35, "hidden")]);
    hold_tug(&picture, 10, 40, &[at(0, 3), at(39, 3), at(40, 3)], &[(0, "hidden"), (39, "visible")]);

    for (closure, cell, shown) in [
        (200, 3, &[(0, "visible"), (9, "hidden")][..]),
        (202, 3, &[(0, "hidden"), (12, "visible"), (21, "hidden")]),
        (203, 0, &[(0, "hidden"), (17, "visible")]),
        (206, 1, &[(0, "visible"), (1, "hidden")]),
    ] {
        let group = picture.id(&format!("closure-{closure}"));
        hold_shown(group, 40, shown);
        let (square, cell) = (group.child("rect"), picture.id(&format!("cell-{cell}")));
        assert_eq!(square.of("fill"), "url(#hatch)");
        assert_eq!(["x", "y", "width", "height"].map(|name| square.of(name)), ["x", "y", "width", "height"].map(|name| cell.of(name)));
        assert_eq!(group.child("text").text, closure.to_string());
    }
    assert_eq!(picture.id("hatch").name, "pattern");
}

/// Each cell is a square around its centre, with its number inside; squares do not overlap, and all of them are in the picture.
#[test]
fn squares_and_clock() {
    // In a row; two that are near and one far away; two at one place; all at one place; large numbers.
    for (name, centres) in [
        ("row", CENTRES),
        ("near", [(500, 500), (510, 505), (1_500, 500), (60_000, 65_535)]),
        ("double", [(500, 500), (500, 500), (1_500, 500), (2_500, 500)]),
        ("point", [(7, 9); 4]),
        ("wide", [(0, 65_535), (65_535, 0), (0, 0), (65_535, 65_535)]),
        ("small", [(0, 0), (1, 0), (2, 0), (3, 0)]),
    ] {
        let (picture, _) = Shift::new(name, &hall(12, &centres), &[]).picture();
        let view: Vec<f64> = picture.of("viewBox").split(' ').map(|number| number.parse().unwrap()).collect();
        let numbers: Vec<&Element> = picture.children.iter().filter(|child| child.name == "text").collect();
        assert_eq!(numbers.len(), 4, "{name}");
        let mut squares = Vec::new();
        for (cell, (x, y)) in centres.iter().enumerate() {
            let square = picture.id(&format!("cell-{cell}"));
            let [left, top, side, height] = ["x", "y", "width", "height"].map(|name| square.number(name));
            assert!(side > 0.0 && side == height && left + side / 2.0 == f64::from(*x) && top + side / 2.0 == f64::from(*y), "{name}: {square:?}");
            assert!(left > view[0] && top > view[1] && left + side < view[0] + view[2] && top + side < view[1] + view[3], "{name}: {square:?}");
            let number = numbers[cell];
            let (x, y) = (number.number("x"), number.number("y"));
            assert!(number.text == cell.to_string() && x > left && y > top && x < left + side && y < top + side, "{name}: {number:?}");
            squares.push((left, top, side, centres[cell]));
        }
        for (k, a) in squares.iter().enumerate() {
            for b in &squares[..k] {
                let apart = a.0 >= b.0 + b.2 || b.0 >= a.0 + a.2 || a.1 >= b.1 + b.2 || b.1 >= a.1 + a.2;
                assert!(apart || a.3 == b.3, "{name}: {a:?} {b:?}");
            }
        }

        // The clock's window is in the picture, above all squares.
        let window = picture.child("svg");
        let [left, top, width, height] = ["x", "y", "width", "height"].map(|name| window.number(name));
        assert!(left >= view[0] && top >= view[1] && left + width <= view[0] + view[2], "{name}: {view:?} {left} {width}");
        assert!(squares.iter().all(|square| top + height <= square.1), "{name}: {top} {height}");
        let clock = window.child("g");
        assert_eq!(clock.of("id"), "clock");
        let moves = clock.child("animateTransform");
        assert_eq!(["type", "calcMode", "dur", "repeatCount"].map(|name| moves.of(name)), ["translate", "discrete", "3.25s", "indefinite"]);
        assert!(!moves.attributes.contains_key("keyTimes"), "the ticks are even");
        let lines: Vec<&Element> = clock.children.iter().filter(|child| child.name == "text").collect();
        let moved: Vec<f64> = moves.of("values").split(';').map(|value| place_at(0.0, value)).map(|(_, x, y)| y + x).collect();
        assert_eq!((lines.len(), moved.len()), (13, 13));
        for (tick, (line, moved)) in lines.iter().zip(moved).enumerate() {
            assert_eq!(line.text, format!("tick {tick} of 12"));
            assert!((line.number("y") + moved - lines[0].number("y")).abs() < 1e-3, "{name}: {line:?} {moved}");
        }
    }
}

/// Places are written as they are, to the last sixteenth.
#[test]
fn sixteenths() {
    let shift = Shift::new("sixteenths", &hall(12, &[(65_535, 7), (0, 8), (1, 65_535), (40_001, 0)]), &[route(7, 0, 0, 4, 0), post()].concat());
    let (picture, _) = shift.picture();
    let stops = [(0.0, 65_535.0, 7.0), (2.0, 0.0, 8.0), (3.0, 1.0, 65_535.0), (5.0, 40_001.0, 0.0), (13.0, 40_001.0, 0.0)];
    hold_tug(&picture, 7, 13, &stops, &[(0, "visible"), (6, "hidden")]);
    let values = picture.id("tug-7").child("animateTransform").of("values");
    assert!(values.starts_with("65535 7;61439.0625 7.0625;") && values.contains(";4095.9375 7.9375;0 8;0.0625 4103.4375;"), "{values}");
}

/// From one cell to the other and back: the turning point is between two frames with one place.
#[test]
fn there_and_back() {
    let mut site = Vec::new();
    put(&mut site, 1, &[0, 9, 0, 2, 0, 3, 0]);
    for cell in [0, 1, 0] {
        put(&mut site, 2, &[0, cell, 0]);
    }
    put(&mut site, 3, &[0, 0, 0, 1, 2, 0, 0, 0, 1, 0, 1, 1, 2]);
    put(&mut site, 3, &[0, 1, 0, 2, 2, 0, 1, 0, 1, 0, 0, 1, 2]);
    put(&mut site, 4, &[0, 0, 0, 16]);
    put(&mut site, 4, &[0, 16, 0, 0]);
    let (picture, _) = Shift::new("back", &site, &[route(7, 0, 0, 2, 0), post()].concat()).picture();
    let stops = [(0.0, 0.0, 16.0), (2.0, 16.0, 0.0), (4.0, 0.0, 16.0), (10.0, 0.0, 16.0)];
    hold_tug(&picture, 7, 10, &stops, &[(0, "visible"), (5, "hidden")]);
}

/// Another tag or length and a cut field end the script, as they do in the day program; what stands then is drawn.
#[test]
fn script_that_ends_early() {
    let begins = [route(7, 0, 0, 4, 0), post()].concat();
    let more = close(200, 3, 9, 9);
    let mut wrong = vec![vec![36, 0, 0], vec![1, 0, 0], vec![32, 0, 6, 200, 3, 0, 9, 0, 9], vec![35, 0, 1, 0]];
    for mut field in [more.clone(), withdraw(7), route(8, 2, 6, 2, 0), post()] {
        // 256 bytes more
        field[1] = 1;
        wrong.push(field);
    }
    let wrong = wrong.into_iter().map(|field| [field, more.clone()].concat());
    let cut = (1..more.len()).map(|len| more[..len].to_vec());
    for ends in wrong.chain(cut) {
        let (picture, said) = Shift::new("early", &hall(12, &CENTRES), &[&begins[..], &ends].concat()).picture();
        assert_eq!((picture.ids("tug"), picture.ids("closure")), (vec![7], vec![]), "{ends:?}");
        let said: Vec<&str> = said.lines().collect();
        assert!(said.len() == 2 && said[0].starts_with("The script ends at field 3, ") && said[1].starts_with("Picture: "), "{ends:?}: {said:?}");
    }
    let (picture, _) = Shift::new("early", &hall(12, &CENTRES), &[begins, more].concat()).picture();
    assert_eq!((picture.ids("tug"), picture.ids("closure")), (vec![7], vec![200]));
    let (picture, said) = Shift::new("early", &hall(12, &CENTRES), &[]).picture();
    assert_eq!((picture.ids("tug"), picture.ids("closure"), said.lines().count()), (vec![], vec![], 1));
}

/// A hall that the day program has no room for is drawn, and it is said.
#[test]
fn large_hall() {
    let mut site = hall(1_000, &[]);
    site[5..7].copy_from_slice(&1_000u16.to_be_bytes());
    for cell in 0..1_000u16 {
        put(&mut site, 4, &[(60 * (cell % 40)).to_be_bytes(), (60 * (cell / 40)).to_be_bytes()].concat());
    }
    let script = [close(254, 999, 1_000, 1_000), route(7, 0, 990, 4, 5), post()].concat();
    let (picture, said) = Shift::new("large", &site, &script).picture();
    assert!(said.lines().count() == 2 && said.contains("7 or 14") && said.contains("ticks 0 to 1000 in 250.25 seconds"), "{said}");
    assert_eq!(picture.ids("cell"), (0..1_000).collect::<Vec<u32>>());
    hold_shown(picture.id("closure-254"), 1_001, &[(0, "hidden"), (1_000, "visible")]);
    let stops = [(0.0, 0.0), (990.0, 0.0), (992.0, 60.0), (993.0, 120.0), (995.0, 180.0), (1_000.0, 180.0), (1_001.0, 180.0)].map(|(tick, x)| (tick, x, 0.0));
    hold_tug(&picture, 7, 1_001, &stops, &[(0, "hidden"), (990, "visible")]);
}

#[test]
fn no_picture() {
    let text = |number: u8| format!("{number}, {}", docs::header_numbers().into_iter().find(|entry| entry.number == number).unwrap().text);
    let site = hall(12, &CENTRES);
    let shift = Shift::new("none", &site, &script());
    let put_site = |bytes: &[u8]| fs::write(shift.file("site.bin"), bytes).unwrap();
    // A picture that is there stays as it is.
    for old in [false, true] {
        if old {
            fs::write(shift.file("shift.svg"), "old").unwrap();
        }
        put_site(&hall(12, &[]));
        shift.refused(3, &["site.bin is refused: ", &text(20)]);
        fs::write(shift.file("script"), []).unwrap();
        shift.refused(3, &["site.bin is refused: ", &text(20)]);
        fs::write(shift.file("script"), script()).unwrap();
        put_site(&hall(12, &CENTRES[..3]));
        shift.refused(3, &["site.bin is refused: ", &text(4)]);
        put_site(&[]);
        shift.refused(3, &["site.bin is refused: ", &text(3)]);
        put_site(&site[..143]);
        shift.refused(3, &["site.bin is refused: ", &text(2)]);
        put_site(&[&site[..], &vec![0; 65_537]].concat());
        shift.refused(3, &["site.bin is refused: ", &text(1)]);
        fs::remove_file(shift.file("site.bin")).unwrap();
        shift.refused(2, &["site.bin can't be read: ", "No such file"]);
        fs::create_dir(shift.file("site.bin")).unwrap();
        shift.refused(2, &["site.bin can't be read: ", "not a file"]);
        fs::remove_dir(shift.file("site.bin")).unwrap();
        put_site(&site);
        fs::remove_file(shift.file("script")).unwrap();
        shift.refused(2, &["script can't be read: ", "No such file"]);
        symlink("/dev/zero", shift.file("script")).unwrap();
        shift.refused(2, &["script can't be read: ", "not a file"]);
        fs::remove_file(shift.file("script")).unwrap();
        fs::write(shift.file("script"), script()).unwrap();
    }
    // It is replaced, and not written over.
    let kept = shift.folder.with_extension("kept");
    let _ = fs::remove_file(&kept);
    fs::hard_link(shift.file("shift.svg"), &kept).unwrap();
    shift.picture();
    assert_eq!(fs::read(&kept).unwrap(), b"old");
    // It can't be replaced.
    fs::remove_file(shift.file("shift.svg")).unwrap();
    fs::create_dir(shift.file("shift.svg")).unwrap();
    let done = shift.run();
    assert!(done.status == Some(1) && done.err.contains("shift.svg can't be written: "), "{done:?}");
    assert_eq!(shift.names(), ["script", "shift.svg", "site.bin"]);
    // No folder, and two.
    for words in [&[][..], &["a", "b"]] {
        let done = finish(Command::new(program()).args(words));
        assert!(done.status == Some(2) && done.out.is_empty() && done.err.starts_with("usage: picture FOLDER"), "{done:?}");
    }
    let done = finish(Command::new(program()).arg(shift.file("nowhere")));
    assert!(done.status == Some(2) && done.err.contains("nowhere/site.bin can't be read: "), "{done:?}");
}

/// `./day --picture`, and README's commands for it, with an `rt` that has nothing to do, as the gate has built all. One test, since only one
/// `./day` runs at a time.
#[test]
fn day_script() {
    let place = Shift::new("day", &hall(12, &CENTRES), &[close(200, 3, 0, 8), route(7, 0, 0, 4, 1), post(), post()].concat());
    let kit = Path::new(env!("CARGO_TARGET_TMPDIR")).join("picture_kit");
    let asked = kit.join("asked");
    let rt = |does: &str| {
        let _ = fs::remove_file(&asked);
        programs::write(&kit.join("rt"), &format!("#!/bin/sh\ncat >/dev/null\necho \"${{PWD##*/}}: $*\" >>'{}'\n{does}\n", asked.display()));
    };
    let path = |rest: &[PathBuf]| std::env::join_paths([&kit].into_iter().chain(rest)).unwrap();
    let whole: Vec<PathBuf> = std::env::split_paths(&std::env::var_os("PATH").unwrap()).collect();
    let day = |words: &[&str], path: &std::ffi::OsStr| {
        let folder = place.folder.parent().unwrap();
        finish(Command::new(c::root().join("day")).args(words).env("PATH", path).env("DISPATCH_LIB_DIR", "/nowhere").current_dir(folder))
    };
    rt("echo 'rt: nothing has changed since the last proved build, by out/day.stamp, so nothing is checked now'");
    let plain = day(&["day"], &path(&whole));
    assert!(plain.status == Some(0) && plain.out == "0 1 0\n0 1 10\n0 2 0\n12 2 0\n", "{plain:?}");
    assert_eq!(place.names(), ["script", "site.bin"]);
    let drawn = day(&["--picture", "day"], &path(&whole));
    assert!(drawn.status == Some(0) && drawn.out == plain.out && drawn.err.starts_with(&plain.err), "{drawn:?}");
    assert!(drawn.err.ends_with("closures: 1; ticks 0 to 12 in 3.25 seconds, and again\n"), "{drawn:?}");
    assert_eq!(fs::read_to_string(&asked).unwrap(), "day: run\nday: run\ndispatch_c: lib\n");
    let by_day = fs::read(place.file("shift.svg")).unwrap();
    place.picture();
    assert!(by_day == fs::read(place.file("shift.svg")).unwrap(), "another picture");

    // Without centres the lines are the same, and then there is no picture.
    fs::remove_file(place.file("shift.svg")).unwrap();
    fs::write(place.file("site.bin"), hall(12, &[])).unwrap();
    let none = day(&["--picture", "day"], &path(&whole));
    assert!(none.status == Some(3) && none.out == plain.out && none.err.contains("day/site.bin is refused: 20, "), "{none:?}");
    fs::remove_file(place.file("site.bin")).unwrap();
    let none = day(&["--picture", "day"], &path(&whole));
    assert!(none.status == Some(2) && none.out == "3 0 0\n" && none.err.contains("day/site.bin can't be read: "), "{none:?}");

    // Words that are not for it, and a folder that is not there, before anything is proved.
    rt("exit 2");
    let help = day(&["--help"], &path(&whole)).out;
    assert!(help.contains("./day --picture FOLDER\n"), "{help}");
    for words in [&["--picture"][..], &["--picture", "-"], &["--picture", "day", "-"], &["--picture", "day", "day"], &["day", "--picture"]] {
        let done = day(words, &path(&whole));
        assert!(done.status == Some(2) && done.out.is_empty() && done.err == help, "{words:?}: {done:?}");
    }
    let done = day(&["--picture", "nowhere"], &path(&whole));
    assert!(done.status == Some(2) && done.err == "There is no folder 'nowhere'.\n", "{done:?}");
    assert!(!asked.exists());

    // Without cargo, and without an archive.
    let tools = kit.join("tools");
    let _ = fs::remove_dir_all(&tools);
    fs::create_dir_all(&tools).unwrap();
    for name in ["awk", "bash", "cat", "dirname", "mktemp", "readlink", "rm", "sed", "stat", "tee"] {
        let file = whole.iter().map(|folder| folder.join(name)).find(|file| file.is_file()).unwrap_or_else(|| panic!("no {name} on the path"));
        symlink(file, tools.join(name)).unwrap();
    }
    let done = day(&["--picture", "day"], &path(&[tools]));
    assert!(done.status == Some(1) && done.out.is_empty() && done.err.lines().count() == 1, "{done:?}");
    assert!(done.err.contains("cargo") && done.err.contains("not on the path") && !asked.exists(), "{done:?}");
    fs::write(place.file("site.bin"), hall(12, &CENTRES)).unwrap();
    rt("[ \"$1\" = run ] && exit\necho 'error: a goal'\nexit 1");
    let done = day(&["--picture", "day"], &path(&whole));
    assert!(done.status == Some(1) && done.out == plain.out && done.err.ends_with("error: a goal\nThe archive was not built.\n"), "{done:?}");
    assert_eq!(place.names(), ["script", "site.bin"]);

    // README's commands.
    rt("");
    let commands = docs::block(&docs::text("README.md"), "bash", "./day --picture");
    let _ = fs::remove_dir_all(c::root().join("target/shift"));
    let done = finish(Command::new("bash").args(["-e", "-c", &commands]).env("PATH", path(&whole)).current_dir(c::root()));
    assert!(done.status == Some(0) && done.out == "0 1 0\n0 1 10\n0 2 0\n", "{done:?}");
    assert_eq!(fs::read(c::root().join("target/shift/site.bin")).unwrap(), hall(12, &CENTRES));
    let picture = Element::read(&fs::read_to_string(c::root().join("target/shift/shift.svg")).unwrap());
    assert_eq!((picture.ids("tug"), picture.ids("closure")), (vec![7], vec![200]));
}
