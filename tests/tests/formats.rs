//! docs/FORMATS.md: its bytes are those of the desk, its numbers those of the header and of the Rust package, and its links lead somewhere.

#![cfg(not(feature = "standin"))]

use dispatch::{steps, Desk, Granted, Picture, Place, Refusal, Sizes, Step, Trip};
use dispatch_tests::docs::{block, bytes, header_numbers, table, text};
use dispatch_tests::gen::{self, CALLS};
use dispatch_tests::literal::{self, encode, Light};
use dispatch_tests::{c, day, four};
use std::fs;
use std::path::{Path, PathBuf};
use std::process::Command;

fn formats() -> String {
    text("docs/FORMATS.md")
}

fn hex(mark: &str) -> Vec<u8> {
    bytes(&block(&formats(), "hex", mark))
}

#[test]
fn whole_site_file() {
    let file = hex("# head: H 12, C 4, S 5");
    assert_eq!(file, fs::read(c::root().join("crates/day/data/site.bin")).unwrap());
    assert_eq!(file, four::bytes());
    assert_eq!(file.len(), 116);
}

/// The worked hall with centres: its 116 bytes and four fields, which the desk takes.
#[test]
fn whole_site_file_with_centres() {
    let file = [hex("# head: H 12, C 4, S 5"), hex("# centre of cell 0")].concat();
    assert_eq!((file.len(), &file), (144, &four::drawn_bytes()));
    let fields: Vec<String> = block(&formats(), "hex", "# centre of cell 0").lines().map(str::to_string).collect();
    for (cell, (line, centre)) in fields.iter().zip(four::with_centres(0).centres).enumerate() {
        let said = line.replace(',', "");
        assert!(said.ends_with(&format!("# centre of cell {cell}: x {} y {}", centre.x, centre.y)), "{line}");
    }
    assert_eq!((fields.len(), opened(file.clone()), opened(file[..137].to_vec())), (4, 0, 4));
}

/// The example with cells above 255: the desk takes it, and a route leads from the one cell to the other.
#[test]
fn cells_above_255() {
    let mut desk = Desk::open(&hex("# head: H 100, C 640, S 2")).unwrap();
    assert_eq!(desk.sizes(), Sizes { horizon: 100, cells: 640, states: 2, margin: 0 });
    let granted = desk.route(Trip { tug: 7, start: 0, tick: 0, goal: 1, dwell: 0 }).unwrap();
    desk.post(&granted.light).unwrap();
    let held = [(638, 0), (638, 1), (639, 1), (639, 2)];
    assert!(held.iter().all(|&(cell, tick)| desk.holder(cell, tick) == Some(7)));
    assert_eq!(desk.board()[4..].iter().filter(|&&byte| byte != 0).count(), held.len());
}

/// The bytes between the backticks of a table's cell.
fn in_backticks(cell: &str) -> Vec<u8> {
    bytes(cell.split('`').nth(1).unwrap())
}

/// The table of older fields: what it calls mended is in the worked hall's file and script, and what it calls old is refused in its place.
#[test]
fn older_files() {
    let (site, script) = (four::bytes(), fs::read(c::root().join("crates/day/stdin")).unwrap());
    let rows = table(&formats(), "| field | before | now |");
    let numbers: Vec<u8> = rows[..4].iter().map(|row| replaced(&site, &in_backticks(&row[2]), &in_backticks(&row[1]))).map(opened).collect();
    assert_eq!(numbers, [3, 3, 4, 4]);
    let old = replaced(&script, &in_backticks(&rows[4][2]), &in_backticks(&rows[4][1]));
    assert_eq!((day::transcript(Some(&site), &script), day::transcript(Some(&site), &old)), ("0 1 0\n0 1 10\n0 2 0\n".into(), "99 0 0\n".into()));
    assert_eq!(rows.len(), 5);
}

/// The bytes with another field in the place of one that is there once.
fn replaced(bytes: &[u8], field: &[u8], by: &[u8]) -> Vec<u8> {
    let at: Vec<usize> = (0..bytes.len()).filter(|&at| bytes[at..].starts_with(field)).collect();
    assert_eq!(at.len(), 1, "{field:?} in {bytes:?}");
    [&bytes[..at[0]], by, &bytes[at[0] + field.len()..]].concat()
}

fn opened(site: Vec<u8>) -> u8 {
    Desk::open(&site).map_or_else(|refusal| refusal.number(), |_| 0)
}

#[test]
fn script_light_and_board() {
    let script = hex("# close: closure 200");
    assert_eq!(script, fs::read(c::root().join("crates/day/stdin")).unwrap());
    assert_eq!(script.len(), 25);
    let mut desk = Desk::open(&hex("# head: H 12, C 4, S 5")).unwrap();
    desk.close(200, 3, 0..=8).unwrap();
    let granted = desk.route(Trip { tug: 7, start: 0, tick: 0, goal: 4, dwell: 0 }).unwrap();
    let light = hex("# head: edition 1, tug 7");
    assert_eq!((granted.light, granted.arrival), (light.clone(), 10));
    assert_eq!(light.len(), 38);
    desk.post(&light).unwrap();
    assert_eq!(desk.board(), hex("# edition 2"));
}

fn numbers_in(text: &str) -> Vec<u16> {
    text.split(|c: char| !c.is_ascii_digit()).filter_map(|number| number.parse().ok()).collect()
}

/// What a route comes to, in the words of the table: its number, or its steps and arrival.
fn in_words(route: Result<Granted, Refusal>) -> String {
    let step = |step: Step| match step {
        Step::Wait(n) => format!("W{n}"),
        Step::Motion(k) => format!("M{k}"),
    };
    match route {
        Err(refusal) => refusal.number().to_string(),
        Ok(granted) => {
            let all: Vec<String> = steps(&granted.light).unwrap().into_iter().map(step).collect();
            format!("{}, arrival {}", if all.is_empty() { "no steps".to_string() } else { all.join(" ") }, granted.arrival)
        }
    }
}

/// The cases A to I, which are routes: each on its board, as the table has it. The other cases stand in `worked.rs` alone.
#[test]
fn routes_of_four_in_line() {
    let rows = table(&formats(), "| case | board | call | answer |");
    let column = |case: &str, k: usize| rows.iter().find(|row| row[0] == case).unwrap_or_else(|| panic!("no case {case}"))[k].as_str();
    for case in ["A", "B", "C", "D", "E", "F", "G", "H", "I"] {
        let mut desk = Desk::open(&four::bytes()).unwrap();
        let board = column(case, 1).replace("as B", column("B", 1));
        for (k, closed) in board.split(", and ").map(numbers_in).filter(|closed| !closed.is_empty()).enumerate() {
            desk.close(200 + k as u8, closed[0], closed[1]..=*closed.last().unwrap()).unwrap();
        }
        let from = numbers_in(column(case, 2));
        let (start, tick) = (from.first().copied().unwrap_or(0), from.last().copied().unwrap_or(0));
        let answer = column(case, 3).replace("as B", column("B", 3));
        let answer = answer.split([';', ':']).next().unwrap();
        let said = in_words(desk.route(Trip { tug: 7, start, tick, goal: 4, dwell: 0 }));
        // E gives its arrival alone.
        let right = if case == "E" { said.ends_with(&format!(", {answer}")) } else { said == answer };
        assert!(right, "case {case}: {said}, and the table says {answer}");
    }
}

/// A picture in the words of the table.
fn picture_in_words(drawn: Result<Picture, Refusal>) -> String {
    match drawn {
        Err(refusal) => refusal.number().to_string(),
        Ok(Picture::OffFloor) => "off the floor".to_string(),
        Ok(Picture::Standing(Place { x, y })) => format!("standing at {x}, {y}"),
        Ok(Picture::Rolling(Place { x, y }, share)) => format!("rolling at {x}, {y}, share {share}"),
    }
}

#[test]
fn pictures_of_four_in_line() {
    let desk = Desk::open(&four::drawn_bytes()).unwrap();
    let rows = table(&formats(), "| light | step | frame | picture |");
    assert!(rows.len() >= 12);
    for row in rows {
        let step = |word: &str| if word.starts_with('W') { literal::Step::Wait(numbers_in(word)[0]) } else { literal::Step::Move(numbers_in(word)[0]) };
        let steps = row[0].split_whitespace().map(step).collect();
        let light = Light { edition: 0, tug: 7, start: 0, tick: 0, goal: 4, arrival: 5, dwell: 0, steps }.encode();
        let said = picture_in_words(desk.draw(&light, row[1].parse().unwrap(), row[2].parse().unwrap()));
        let wanted = row[3].split([':']).next().unwrap().split(", though").next().unwrap();
        assert_eq!(said, wanted, "{row:?}");
    }
    // The kinds, as the table of pictures has them.
    let kinds: Vec<(String, String)> =
        table(&formats(), "| picture | kind | when | x and y | share |").into_iter().map(|row| (row[0].clone(), row[1].clone())).collect();
    assert_eq!(kinds, [("off the floor", "0"), ("standing", "1"), ("rolling", "2")].map(|(name, kind)| (name.to_string(), kind.to_string())));
}

/// What a call of the margins' table comes to, in its words; tug 8 is the one that is routed.
fn called(desk: &mut Desk, call: &str) -> String {
    let numbers = numbers_in(call);
    let last = *numbers.last().unwrap();
    match call.split(' ').next().unwrap() {
        "interval" => {
            let all: Vec<String> = desk.intervals(last).unwrap().into_iter().map(|i| format!("{} to {}", i.start(), i.end())).collect();
            if all.is_empty() {
                "none".to_string()
            } else {
                all.join(", ")
            }
        }
        "close" => desk.close(254, numbers[0], last..=last).map_or_else(|refusal| refusal.number().to_string(), |()| "accepted".to_string()),
        _ => in_words(desk.route(Trip { tug: 8, start: 0, tick: last, goal: 4, dwell: 0 })),
    }
}

/// The cases with a margin. A cell of the table that has several calls names them all by its first words: 'close cell 1 at 4; at 5'.
#[test]
fn margins_of_four_in_line() {
    let rows = table(&formats(), "| margin | board | call | answer |");
    assert!(rows.len() >= 9);
    for row in rows {
        let first = row[2].split(" at ").next().unwrap().to_string();
        for (call, answer) in row[2].split("; ").zip(row[3].split("; ")) {
            let mut desk = Desk::open(&encode(&four::with_margin(row[0].parse().unwrap()))).unwrap();
            if let [cell, at, .., last] | [cell, at @ last] = numbers_in(&row[1])[..] {
                desk.close(200, cell, at..=last).unwrap();
            } else {
                assert_eq!(row[1], "A");
                let light = desk.route(Trip { tug: 7, start: 0, tick: 0, goal: 4, dwell: 0 }).unwrap().light;
                desk.post(&light).unwrap();
            }
            let call = if call.starts_with("at ") { format!("{first} {call}") } else { call.to_string() };
            assert_eq!(called(&mut desk, &call), answer.split(':').next().unwrap(), "margin {}, board {}, {call}", row[0], row[1]);
        }
        assert_eq!(row[2].split("; ").count(), row[3].split("; ").count());
    }
}

/// The command that turns a text into a file, run as it is printed, in a folder of its own: on the worked hall, and on every byte there is.
#[test]
fn command_that_makes_a_file() {
    let command = block(&formats(), "bash", "hall.hex");
    let folder = Path::new(env!("CARGO_TARGET_TMPDIR")).join("make");
    let _ = fs::remove_dir_all(&folder);
    fs::create_dir_all(&folder).unwrap();
    // Behind # stands a byte that is no UTF-8.
    let every: Vec<u8> = (0..=255).flat_map(|byte| [format!("{byte:02x}\t# ").as_bytes(), b"\xe9 41\r\n"].concat()).collect();
    let every_bytes: Vec<u8> = (0..=255).collect();
    let worked = block(&formats(), "hex", "# head: H 12, C 4, S 5").into_bytes();
    let (long, long_bytes) = (b"0fA0 ".repeat(32_768), [0x0f, 0xa0].repeat(32_768));
    for (source, wanted) in [(worked, four::bytes()), (every, every_bytes), (long, long_bytes)] {
        fs::write(folder.join("hall.hex"), source).unwrap();
        let done = Command::new("bash").args(["-c", &command]).current_dir(&folder).env("LC_ALL", "C.UTF-8").output().unwrap();
        assert!(done.status.success() && done.stderr.is_empty(), "{done:?}");
        assert_eq!(fs::read(folder.join("site.bin")).unwrap(), wanted);
        fs::remove_file(folder.join("site.bin")).unwrap();
    }
    for wrong in ["01 0", "0O", "01 G2", "01 é"] {
        fs::write(folder.join("hall.hex"), wrong).unwrap();
        let done = Command::new("bash").args(["-c", &command]).current_dir(&folder).output().unwrap();
        assert!(String::from_utf8(done.stderr).unwrap().starts_with("hall.hex: half a byte") && !folder.join("site.bin").exists(), "{wrong}");
    }
}

/// The command that puts centres behind a file, run as it is printed on the worked hall's.
#[test]
fn command_that_adds_centres() {
    let command = block(&formats(), "bash", ">>site.bin");
    let folder = Path::new(env!("CARGO_TARGET_TMPDIR")).join("centres");
    fs::create_dir_all(&folder).unwrap();
    fs::write(folder.join("site.bin"), four::bytes()).unwrap();
    let done = Command::new("bash").args(["-c", &command]).current_dir(&folder).env("LC_ALL", "C.UTF-8").output().unwrap();
    assert!(done.status.success() && done.stdout.is_empty() && done.stderr.is_empty(), "{done:?}");
    assert_eq!(fs::read(folder.join("site.bin")).unwrap(), four::drawn_bytes());
}

/// `STALE_LIGHT` as `StaleLight`.
fn in_rust(name: &str) -> String {
    name.split('_').map(|word| word[..1].to_string() + &word[1..].to_lowercase()).collect()
}

/// Number, name and text are the same in the header, in the Rust package and in the table here, and there are no others.
#[test]
fn numbers() {
    let header = header_numbers();
    assert_eq!((header[0].name.as_str(), header[0].number, header[0].text.as_str()), ("ACCEPTED", 0, "accepted"));
    let numbers: Vec<u8> = header.iter().map(|entry| entry.number).collect();
    assert_eq!(numbers, (0..=20).collect::<Vec<u8>>());
    let in_package: Vec<(u8, String, &str)> = Refusal::ALL.iter().map(|refusal| (refusal.number(), format!("{refusal:?}"), refusal.text())).collect();
    let in_header: Vec<(u8, String, &str)> = header[1..].iter().map(|entry| (entry.number, in_rust(&entry.name), entry.text.as_str())).collect();
    assert_eq!(in_package, in_header);
    let rows = table(&formats(), "| number | name | what it says | when, and what to do |");
    let in_table: Vec<(u8, String, &str)> = rows.iter().map(|row| (row[0].parse().unwrap(), in_rust(row[1].trim_matches('`')), row[2].as_str())).collect();
    assert_eq!(in_table, in_header);
    assert!(rows.iter().all(|row| row.len() == 4 && row[3].ends_with('.')), "each number says what to do");
}

/// The numbers of each call are those that the comparison with the independent programs expects, and finds.
#[test]
fn numbers_of_each_call() {
    let rows = table(&formats(), "| call | numbers, in the order in which they are asked |");
    assert_eq!(rows.len(), CALLS.len() + 1);
    for (kind, (row, name)) in rows.iter().zip(CALLS).enumerate() {
        let possible: Vec<u8> = gen::possible().into_iter().filter(|&(of, number)| of == kind && number != 0).map(|pair| pair.1).collect();
        let listed: Vec<u8> = row[1].split(' ').map(|number| number.parse().unwrap()).collect();
        assert_eq!((row[0].as_str(), listed), (name, possible));
    }
    assert_eq!(rows[CALLS.len()], ["travel", "19"]);
}

/// The largest areas, as the table has them.
#[test]
fn largest_areas() {
    let most = Sizes::MOST;
    let rows = table(&formats(), "| area | elements | how many |");
    let said = |area: &str| rows.iter().find(|row| row[0] == area).unwrap_or_else(|| panic!("no row {area}"))[2].replace(',', "");
    for (area, needed) in [
        ("board", most.board_bytes()),
        ("route's output", most.light_bytes()),
        ("route's working area", most.work_words()),
        ("interval's numbers", most.interval_numbers()),
    ] {
        assert!(said(area).contains(&format!("at most {needed}")), "{area}: {needed}");
    }
}

/// The heading's name in a link.
fn anchor(heading: &str) -> String {
    let plain = heading.trim_start_matches('#').trim().to_lowercase();
    plain.chars().filter(|c| c.is_alphanumeric() || *c == ' ' || *c == '-').map(|c| if c == ' ' { '-' } else { c }).collect()
}

/// Each link of the documents leads to a file or a heading that is there.
#[test]
fn links() {
    let mut seen = 0;
    for document in ["README.md", "docs/FORMATS.md", "docs/PROMISES.md", "docs/DECISIONS.md", "tests/README.md", "bindings/rust/README.md"] {
        let text = text(document);
        let headings: Vec<String> = text.lines().filter(|line| line.starts_with('#')).map(anchor).collect();
        for target in text.split("](").skip(1).map(|rest| rest.split(')').next().unwrap()) {
            seen += 1;
            match target.split_once('#') {
                Some(("", heading)) => assert!(headings.iter().any(|known| known == heading), "{document} links to {target}"),
                parts => {
                    let path = c::root().join(document).parent().unwrap().join(parts.map_or(target, |parts| parts.0));
                    assert!(path.exists(), "{document} links to {target}");
                    let known = |heading: &str| fs::read_to_string(&path).unwrap().lines().any(|line| line.starts_with('#') && anchor(line) == heading);
                    assert!(parts.is_none_or(|parts| known(parts.1)), "{document} links to {target}");
                }
            }
        }
    }
    assert!(seen >= 20, "only {seen} links");
}

/// The files of a folder and of those below it, but for target/ and a crate's out/, which are made.
fn files(folder: &Path, found: &mut Vec<PathBuf>) {
    for path in fs::read_dir(folder).unwrap().map(|entry| entry.unwrap().path()) {
        let made = ["target", "out"].iter().any(|made| path.file_name().unwrap() == *made);
        if path.is_dir() && !made {
            files(&path, found);
        } else if path.is_file() {
            found.push(path);
        }
    }
}

/// The sections that a source cites, as `'Board' of docs/FORMATS.md` or `'Valid plans' and 'Light' of docs/FORMATS.md`, over the ends of lines too.
fn cited(source: &str) -> Vec<String> {
    let joined: Vec<&str> = source.split_whitespace().filter(|word| !matches!(*word, "--" | "//" | "//!" | "///" | "*")).collect();
    let joined = joined.join(" ");
    let mut sections = Vec::new();
    for (at, _) in joined.match_indices("' of docs/FORMATS.md") {
        let mut before = &joined[..at];
        loop {
            let (rest, section) = before.rsplit_once('\'').unwrap();
            sections.push(section.to_string());
            match rest.strip_suffix("' and ") {
                Some(rest) => before = rest,
                None => break,
            }
        }
    }
    sections
}

/// Comments cite sections of docs/FORMATS.md that are there, and nothing that is not in the repository.
#[test]
fn citations() {
    assert_eq!(cited("-- as 'A b' and\n-- 'C' of docs/FORMATS.md, 'D' and 'E' of\n// docs/FORMATS.md"), ["C", "A b", "E", "D"]);
    let headings: Vec<String> = formats().lines().filter(|line| line.starts_with('#')).map(|line| line.trim_start_matches(['#', ' ']).to_string()).collect();
    let mut found = Vec::new();
    for folder in ["crates", "tests", "bindings", "include"] {
        files(&c::root().join(folder), &mut found);
    }
    let mut seen = 0;
    for path in found.iter().filter(|path| path.extension().is_some_and(|kind| ["antt", "rt", "rs", "h", "edit"].iter().any(|known| kind == *known))) {
        let source = fs::read_to_string(path).unwrap();
        for section in cited(&source).iter().filter(|_| !path.ends_with("formats.rs")) {
            seen += 1;
            assert!(headings.contains(section), "{} cites {section}", path.display());
        }
        assert!(!source.contains(concat!("document", " 0")), "{} cites a paper that is not here", path.display());
    }
    assert!(seen >= 20, "only {seen} citations");
}

/// Each path of the repository that the header names is there.
#[test]
fn paths_of_the_header() {
    let header = text("include/dispatch.h");
    let words = header.split(|c: char| c.is_whitespace() || c == ',' || c == ';').map(|word| word.trim_end_matches(['.', ':']));
    let paths: Vec<&str> = words.filter(|word| word.starts_with("crates/") || word.starts_with("docs/")).collect();
    assert!(paths.len() >= 3, "{paths:?}");
    for path in paths {
        assert!(c::root().join(path).exists(), "the header names {path}");
    }
}
