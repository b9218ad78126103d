//! `./day`: what it writes to which stream and when, what it says of refusals and of what is missing, and how it ends.

#![cfg(not(feature = "standin"))]

use dispatch_tests::gen::{self, Rng};
use dispatch_tests::literal::{encode, put};
use dispatch_tests::{c, day, docs, four, programs};
use std::collections::BTreeSet;
use std::ffi::OsString;
use std::fs;
use std::io::{BufRead, BufReader, Read, Write};
use std::os::unix::fs::{symlink, MetadataExt};
use std::path::{Path, PathBuf};
use std::process::{Command, Stdio};
use std::sync::mpsc::{channel, Receiver};
use std::time::{Duration, Instant};

/// All that `./day` needs besides `rt`. Without `flock` it takes no lock, so that these tests need not wait for each other.
const TOOLS: [&str; 10] = ["awk", "bash", "cat", "dirname", "mktemp", "readlink", "rm", "sed", "stat", "tee"];

const HEADING: &str = "One line for each field of the script, or 0 0 0 if it is empty: number (0 if accepted), edition after, arrival";

/// An `rt` that prints what `rt run` prints in the day program's folder if nothing has changed.
const UNCHANGED: &str = "\
echo 'rt: nothing has changed since the last proved build, by out/day.stamp, so nothing is checked now'
echo 'rt: running out/day; to give it other input, run that file yourself'
echo '3 0 0'";

/// A command of the path, by its whole name.
fn tool(name: &str) -> PathBuf {
    let path = std::env::var_os("PATH").unwrap();
    std::env::split_paths(&path).map(|folder| folder.join(name)).find(|file| file.is_file()).unwrap_or_else(|| panic!("no {name} on the path"))
}

/// A command that has ended.
#[derive(Debug)]
struct Done {
    status: Option<i32>,
    out: String,
    err: String,
}

impl Done {
    /// The lines of standard error.
    fn said(&self) -> Vec<&str> {
        self.err.lines().collect()
    }

    /// It ended before the program was run, with one line that has these words.
    fn stopped(&self, status: i32, words: &[&str]) {
        assert!(self.status == Some(status) && self.out.is_empty() && self.said().len() == 1, "{self:?}");
        for word in words {
            assert!(self.err.contains(word), "{self:?} has no {word}");
        }
    }
}

fn finish(command: &mut Command, input: Option<&[u8]>) -> Done {
    let mut child = programs::start(command.stdin(if input.is_some() { Stdio::piped() } else { Stdio::null() }));
    // In a thread, as the program may print before it has read everything, or end early.
    let writer = child.stdin.take().map(|mut pipe| {
        let bytes = input.unwrap().to_vec();
        std::thread::spawn(move || drop(pipe.write_all(&bytes)))
    });
    let done = child.wait_with_output().unwrap();
    if let Some(writer) = writer {
        writer.join().unwrap();
    }
    Done { status: done.status.code(), out: String::from_utf8(done.stdout).unwrap(), err: String::from_utf8(done.stderr).unwrap() }
}

/// The lines of a stream, as they come.
fn lines(stream: impl Read + Send + 'static) -> Receiver<String> {
    let (sender, receiver) = channel();
    std::thread::spawn(move || BufReader::new(stream).lines().map_while(Result::ok).all(|line| sender.send(line).is_ok()));
    receiver
}

/// Waits for a line that starts so.
fn wait_for(lines: &Receiver<String>, start: &str) {
    while !lines.recv_timeout(Duration::from_secs(60)).unwrap_or_else(|_| panic!("no line {start} in time")).starts_with(start) {}
}

/// A folder to run a `day` in, with the tools that it needs and nothing else on the path but a made-up `rt`.
struct Place {
    folder: PathBuf,
    day: PathBuf,
}

impl Place {
    fn at(folder: PathBuf, day: PathBuf) -> Place {
        let _ = fs::remove_dir_all(&folder);
        fs::create_dir_all(folder.join("tools")).unwrap();
        for name in TOOLS {
            symlink(tool(name), folder.join("tools").join(name)).unwrap();
        }
        Place { folder, day }
    }

    /// For the `day` of the repository, whose program is built, so that `rt` has nothing to do.
    fn new(name: &str) -> Place {
        let place = Place::at(Path::new(env!("CARGO_TARGET_TMPDIR")).join("day_script").join(name), c::root().join("day"));
        place.rt(UNCHANGED);
        place
    }

    /// For a copy of it, with other crates and without a program: `day` builds on two crates, one of them through the other. It is outside the
    /// repository, where rt ci takes no second crates.txt.
    fn copied(name: &str) -> Place {
        let folder = std::env::temp_dir().join(format!("day_script_{}_{name}", std::process::id()));
        let place = Place::at(folder.clone(), folder.join("copy/day"));
        for file in ["day", "include/dispatch.h", "crates/day/data/site.bin", "crates/day/stdin"] {
            programs::copy(&c::root().join(file), &folder.join("copy").join(file));
        }
        fs::write(folder.join("copy/crates.txt"), "# crates\none:\ntwo: one csv\n\nother: two one\nday: two one # itself\nafter staticlib: day\n").unwrap();
        place
    }

    /// The program of a copy.
    fn program(&self) -> PathBuf {
        self.folder.join("copy/crates/day/out/day")
    }

    /// Puts an `rt` on the path that does this, once it has taken all of its input. It is to be asked for one thing, in the day program's folder.
    fn rt(&self, does: &str) {
        let path = std::env::var("PATH").unwrap();
        programs::write(
            &self.folder.join("kit/rt"),
            &format!("#!/bin/sh\nPATH='{path}'\ncat >/dev/null\n[ \"${{PWD##*/}} $*\" = 'day run' ] && [ -f ../../crates.txt ] || exit 2\n{does}\n"),
        );
    }

    fn path(&self) -> OsString {
        std::env::join_paths([self.folder.join("kit"), self.folder.join("tools")]).unwrap()
    }

    /// With a limit of time, as a program can wait for an input that never comes.
    fn command(&self, words: &[&str]) -> Command {
        let mut command = Command::new(tool("timeout"));
        command.arg("100").arg(&self.day).args(words).env("PATH", self.path()).current_dir(&self.folder);
        command
    }

    fn run(&self, words: &[&str], input: Option<&[u8]>) -> Done {
        finish(&mut self.command(words), input)
    }

    /// The same with both streams in one, as on a terminal.
    fn merged(&self, words: &[&str]) -> Command {
        let mut command = Command::new(tool("timeout"));
        command.arg("100").arg(tool("bash")).args(["-c", "exec \"$0\" \"$@\" 2>&1"]).arg(&self.day).args(words);
        command.env("PATH", self.path()).current_dir(&self.folder);
        command
    }

    /// A folder in it with a site and a script.
    fn shift(&self, name: &str, site: Option<&[u8]>, script: &[u8]) {
        let folder = self.folder.join(name);
        let _ = fs::remove_dir_all(&folder);
        fs::create_dir_all(&folder).unwrap();
        if let Some(bytes) = site {
            fs::write(folder.join("site.bin"), bytes).unwrap();
        }
        fs::write(folder.join("script"), script).unwrap();
    }
}

impl Drop for Place {
    /// A copy does not stay.
    fn drop(&mut self) {
        if self.day.starts_with(&self.folder) {
            let _ = fs::remove_dir_all(&self.folder);
        }
    }
}

/// The text of a number in include/dispatch.h.
fn text(number: u32) -> String {
    let entry = docs::header_numbers().into_iter().find(|entry| u32::from(entry.number) == number);
    entry.unwrap_or_else(|| panic!("include/dispatch.h has no text for {number}")).text
}

fn script(fields: &[(u8, &[u8])]) -> Vec<u8> {
    let mut script = Vec::new();
    for (tag, value) in fields {
        put(&mut script, *tag, value);
    }
    script
}

/// A close of cell 3, a route for tug 7 to state 4 with this dwell, and a post.
fn case_b(dwell: u8) -> Vec<u8> {
    script(&[(32, &[200, 0, 3, 0, 0, 0, 8]), (34, &[7, 0, 0, 0, 0, 0, 4, 0, dwell]), (35, &[])])
}

/// With the real `rt`, which must not run twice at a time, so that all of it is one test.
#[test]
fn each_way_to_run_it() {
    let place = Place::new("ways");
    place.shift("shift", Some(&four::bytes()), &case_b(3));
    let run = |words: &[&str], input| finish(Command::new(&place.day).args(words).current_dir(&place.folder), input);
    let heads = |site: &str, script: &str| [format!("Site:   {site}"), format!("Script: {script}"), HEADING.to_string()];
    for (words, input, out, site, script, refusals) in [
        (&[][..], None, "0 1 0\n0 1 10\n0 2 0\n", "crates/day/data/site.bin, 116 bytes", "crates/day/stdin, 25 bytes", 0),
        (&["shift"], None, "0 1 0\n18 1 0\n8 1 0\n", "shift/site.bin, 116 bytes", "shift/script, 25 bytes", 2),
        (&["-"], Some(&case_b(2)[..10]), "0 1 0\n", "crates/day/data/site.bin, 116 bytes", "standard input", 0),
        (&["shift/", "-"], Some(&case_b(2)[..]), "0 1 0\n0 1 10\n0 2 0\n", "shift/site.bin, 116 bytes", "standard input", 0),
    ] {
        let done = run(words, input);
        assert!(done.status == Some(0) && done.out == out, "{words:?}: {done:?}");
        let said = done.said();
        assert_eq!(said.len(), 4 + refusals, "{words:?}: the gate has proved all before, so there is no line for a crate: {done:?}");
        assert!(said[0].starts_with("Proving and building the day program: ") && !said[0].contains("minutes"), "{words:?}: {done:?}");
        assert_eq!(said[1..4], heads(site, script), "{words:?}");
    }
    assert_eq!(fs::read_to_string(c::root().join("crates/day/stdout")).unwrap(), "0 1 0\n0 1 10\n0 2 0\n");
}

#[test]
fn usage() {
    let place = Place::new("usage");
    place.shift("shift", Some(&four::bytes()), &case_b(0));
    let help = place.run(&["--help"], None);
    assert!(help.status == Some(0) && help.err.is_empty(), "{help:?}");
    for form in ["./day  ", "./day FOLDER  ", "./day -  ", "./day FOLDER -  ", "./day --help  "] {
        assert_eq!(help.out.matches(form).count(), 1, "{help:?}: {form}");
    }
    let short = place.run(&["-h"], None);
    assert!(short.status == Some(0) && short.err.is_empty() && short.out == help.out, "{short:?}");
    for words in [
        &["--unknown"][..],
        &["-x"],
        &["shift", "shift"],
        &["shift", "-", "shift"],
        &["-", "-"],
        &["-", "shift"],
        &["-x", "-"],
        &["--help", "shift"],
        &["shift", "--help"],
        &["shift"; 11],
    ] {
        let done = place.run(words, Some(&case_b(0)));
        assert!(done.status == Some(2) && done.out.is_empty() && done.err == help.out, "{words:?}: {done:?}");
    }
}

/// All of this is found before anything is proved, so no `rt` is needed.
#[test]
fn folder_or_script_is_missing() {
    let place = Place::new("missing");
    fs::remove_dir_all(place.folder.join("kit")).unwrap();
    fs::write(place.folder.join("file"), "").unwrap();
    place.run(&["nowhere"], None).stopped(2, &["no folder", "'nowhere'"]);
    place.run(&["nowhere", "-"], None).stopped(2, &["no folder", "'nowhere'"]);
    place.run(&[""], None).stopped(2, &["no folder", "''"]);
    place.run(&["file"], None).stopped(2, &["'file'", "is not a folder"]);
    place.run(&["file", "-"], None).stopped(2, &["'file'", "is not a folder"]);
    place.shift("shift", Some(&four::bytes()), &[]);
    let script = place.folder.join("shift/script");
    fs::remove_file(&script).unwrap();
    place.run(&["shift"], None).stopped(2, &["shift/script", "is not there"]);
    symlink("nowhere", &script).unwrap();
    place.run(&["shift"], None).stopped(2, &["shift/script", "is a link that leads nowhere"]);
    fs::remove_file(&script).unwrap();
    fs::create_dir(&script).unwrap();
    place.run(&["shift"], None).stopped(2, &["shift/script", "is a folder"]);
    fs::remove_dir(&script).unwrap();
    assert!(Command::new("mkfifo").arg(&script).status().unwrap().success());
    place.run(&["shift"], None).stopped(2, &["shift/script", "is not a file"]);
}

/// The program is run all the same, and says what it says of an empty file.
#[test]
fn site_counts_as_empty() {
    let place = Place::new("site");
    place.shift("shift", None, &case_b(0));
    let site = place.folder.join("shift/site.bin");
    let empty = |fault: &str| {
        let done = place.run(&["shift"], None);
        assert!(done.status == Some(0) && done.out == "3 0 0\n", "{fault}: {done:?}");
        assert_eq!(done.said()[1], format!("Site:   shift/site.bin {fault}, so it counts as empty"));
        assert_eq!(done.said()[4..], [format!("the site is refused: 3, {}", text(3))]);
    };
    empty("is not there");
    symlink("nowhere", &site).unwrap();
    empty("is a link that leads nowhere");
    fs::remove_file(&site).unwrap();
    symlink("/dev/zero", &site).unwrap();
    empty("is not a file");
    fs::remove_file(&site).unwrap();
    fs::create_dir(&site).unwrap();
    empty("is a folder");
    fs::remove_dir(&site).unwrap();
    assert!(Command::new("mkfifo").arg(&site).status().unwrap().success());
    empty("is not a file");
}

/// Root can read every file. So for root a copy is run as nobody, as `rt` runs a program, where nobody can reach it.
#[test]
fn files_that_cannot_be_read() {
    let place = Place::copied("unreadable");
    place.rt(UNCHANGED);
    programs::copy(&c::root().join("crates/day/out/day"), &place.program());
    place.shift("shift", Some(&four::bytes()), &case_b(0));
    fs::create_dir(place.folder.join("tmp")).unwrap();
    programs::set_mode(&place.folder.join("tmp"), 0o777);
    assert!(Command::new("chmod").args(["-R", "go+rX"]).arg(&place.folder).status().unwrap().success());
    let run = |words: &[&str]| {
        let ours = place.command(words);
        let mut command = Command::new(tool("setpriv"));
        command.args(["--reuid=65534", "--regid=65534", "--clear-groups"]).arg(ours.get_program());
        if fs::metadata("/proc/self").unwrap().uid() != 0 {
            command = Command::new(ours.get_program());
        }
        command.args(ours.get_args()).env("PATH", place.path()).env("TMPDIR", place.folder.join("tmp")).current_dir(&place.folder);
        finish(&mut command, None)
    };
    assert_eq!(run(&["shift"]).out, "0 1 0\n0 1 10\n0 2 0\n");
    programs::set_mode(&place.folder.join("shift/site.bin"), 0o000);
    let done = run(&["shift"]);
    assert!(done.status == Some(0) && done.out == "3 0 0\n", "{done:?}");
    assert_eq!(done.said()[1], "Site:   shift/site.bin can't be read, so it counts as empty");
    programs::set_mode(&place.folder.join("shift/script"), 0o000);
    run(&["shift"]).stopped(2, &["shift/script", "can't be read"]);
    programs::set_mode(&place.folder.join("shift"), 0o600);
    run(&["shift"]).stopped(2, &["'shift'", "can't be entered"]);
    programs::set_mode(&place.folder.join("shift"), 0o700);
}

/// Each number that the program can print, with the reason behind its line.
#[test]
fn reasons_in_words() {
    let place = Place::new("reasons");
    let mut seen = BTreeSet::new();
    let mut agree = |site: &[u8], script: &[u8]| {
        place.shift("shift", Some(site), script);
        let done = finish(&mut place.merged(&["shift"]), None);
        let mut wanted = Vec::new();
        for (at, line) in day::transcript(Some(site), script).lines().enumerate() {
            let (field, number) = (at + 1, line.split(' ').next().unwrap().parse().unwrap());
            wanted.push(line.to_string());
            match number {
                0 => continue,
                7 => wanted.push(format!("the site is refused: 7, {}; the day program has 65,536 bytes for it", text(7))),
                1..=6 => wanted.push(format!("the site is refused: {number}, {}", text(number))),
                14 => wanted.push(format!("field {field} is refused: 14, {}; the day program has 16,384 words to search in", text(14))),
                99 => wanted.push(format!("field {field}: 99, the script has another tag or length there, is cut, or can't be read; the program ends")),
                _ => wanted.push(format!("field {field} is refused: {number}, {}", text(number))),
            }
            seen.insert(number);
        }
        assert!(done.status == Some(0), "{done:?}");
        assert_eq!(done.out.lines().skip_while(|line| *line != HEADING).skip(1).collect::<Vec<_>>(), wanted);
    };
    let hall = four::site();
    let site = encode(&hall);
    let wide = |h, c, states| {
        let mut wide = four::site();
        (wide.h, wide.c) = (h, c);
        wide.states.resize(states, wide.states[0]);
        encode(&wide)
    };
    // 1 to 7
    let mut long = site.clone();
    long.resize(65_537, 0);
    agree(&long, &case_b(0));
    for number in 2..=6 {
        agree(&gen::damaged(&mut Rng::new(1), &hall, &[number]), &case_b(0));
    }
    agree(&wide(964, 68, 5), &case_b(0));
    // 8 to 13
    agree(&site, &script(&[(35, &[]), (32, &[5, 0, 3, 0, 0, 0, 8]), (32, &[200, 0, 9, 0, 0, 0, 8]), (34, &[7, 0, 0, 0, 0, 0, 1, 0, 0])]));
    agree(&site, &script(&[(32, &[200, 0, 3, 0, 0, 0, 8]), (33, &[201]), (32, &[200, 0, 2, 0, 0, 0, 8]), (33, &[200]), (32, &[200, 0, 2, 0, 0, 0, 8])]));
    // 14
    agree(&wide(128, 4, 128), &case_b(0));
    // 16: the board changes between the route and the post
    agree(&site, &script(&[(34, &[7, 0, 0, 0, 0, 0, 4, 0, 2]), (32, &[200, 0, 0, 0, 12, 0, 12]), (35, &[])]));
    // 17: the posted light holds cell 3 at tick 7
    agree(&site, &script(&[(34, &[7, 0, 0, 0, 0, 0, 4, 0, 2]), (35, &[]), (32, &[200, 0, 3, 0, 7, 0, 7]), (32, &[200, 0, 3, 0, 8, 0, 8])]));
    // 18, and 8 behind it, as nothing was granted
    agree(&site, &case_b(3));
    // 99: a cut field, another tag and another length, each behind a field
    for end in [&[34][..], &[34, 0, 9, 7], &[36, 0, 0], &[32, 0, 1, 200]] {
        agree(&site, &[&case_b(3)[..10], end].concat());
    }
    // 15 needs more calls than anyone makes, and 19 is of a call that a script does not have.
    assert_eq!(seen.into_iter().collect::<Vec<u32>>(), [1, 2, 3, 4, 5, 6, 7, 8, 9, 10, 11, 12, 13, 14, 16, 17, 18, 99]);
}

/// A script is only said to be empty if it is.
#[test]
fn empty_script() {
    let place = Place::new("empty");
    let said = |words: &[&str], input| {
        let done = place.run(words, input);
        assert!(done.status == Some(0) && done.out == "0 0 0\n", "{done:?}");
        done.said()[4..].join("\n")
    };
    place.shift("shift", Some(&four::bytes()), &[]);
    assert_eq!(said(&["shift"], None), "the script is empty: a shift without movements");
    // The same line for a tug that is at its goal.
    let there = script(&[(34, &[7, 0, 0, 0, 0, 0, 0, 0, 0])]);
    place.shift("shift", Some(&four::bytes()), &there);
    assert_eq!(said(&["shift"], None), "");
    assert_eq!(said(&["-"], Some(&there)), "");
    assert_eq!(said(&["-"], None), "");
    // An empty script on a site that is refused.
    place.shift("shift", None, &[]);
    assert_eq!(place.run(&["shift"], None).said()[4..], [format!("the site is refused: 3, {}", text(3))]);
}

/// Each line and its reason are there before the next field is.
#[test]
fn late_script() {
    let place = Place::new("late");
    let mut child = programs::start(place.merged(&["-"]).stdin(Stdio::piped()));
    let mut input = child.stdin.take().unwrap();
    let lines = lines(child.stdout.take().unwrap());
    for field in ["field 1 is refused: 13, ", "field 2 is refused: 13, "] {
        input.write_all(&script(&[(33, &[9])])).unwrap();
        wait_for(&lines, field);
    }
    input.write_all(&[33]).unwrap();
    drop(input);
    wait_for(&lines, "field 3: 99, ");
    assert!(child.wait().unwrap().success());
}

/// 66,667 fields, each refused.
#[test]
fn long_script() {
    let place = Place::new("long");
    place.shift("shift", Some(&four::bytes()), &[35, 0, 0].repeat(66_667));
    let began = Instant::now();
    let done = place.run(&["shift"], None);
    assert!(began.elapsed() < Duration::from_secs(30), "a script of 200,000 bytes takes {:?}", began.elapsed());
    assert!(done.out == "8 0 0\n".repeat(66_667), "other lines for a long script");
    assert_eq!(done.said().len(), 4 + 66_667);
    assert_eq!(done.said()[4 + 66_666], format!("field 66667 is refused: 8, {}", text(8)));
}

/// Also if its output ends within a line, and whatever the caller's CDPATH is.
#[test]
fn bytes_and_status_of_the_program() {
    let place = Place::copied("status");
    place.rt(UNCHANGED);
    programs::write(&place.program(), "#!/bin/sh\necho '0 1 0'\nprintf '42 \\\\ x\\n0 1'\nexit 7\n");
    let done = place.run(&[], None);
    assert!(done.status == Some(7) && done.out == "0 1 0\n42 \\ x\n0 1", "{done:?}");
    // It reads site.bin of the folder that was named.
    programs::write(&place.program(), "#!/bin/sh\nwhile read -r line; do echo \"$line\"; done <site.bin\n");
    place.shift("shift", Some(b"0 0 1\n"), &[]);
    place.shift("elsewhere/shift", Some(b"0 0 2\n"), &[]);
    for words in [&["shift"][..], &["shift", "-"]] {
        let done = finish(place.command(words).env("CDPATH", place.folder.join("elsewhere")), None);
        assert!(done.status == Some(0) && done.out == "0 0 1\n", "{done:?}");
    }
    // Lines that can't be written are no success.
    programs::write(&place.program(), "#!/bin/sh\necho '0 1 0'\n");
    let lost = finish(Command::new(tool("bash")).args(["-c", "exec \"$0\" >/dev/full"]).arg(&place.day).env("PATH", place.path()), None);
    assert!(lost.status != Some(0), "{lost:?}");
}

#[test]
fn no_rt() {
    let place = Place::copied("no_rt");
    place.run(&[], None).stopped(1, &["rt", "Rattle kit", "not on the path", "crates/day/out/day, and there is none."]);
    programs::write(&place.program(), "#!/bin/sh\necho '0 1 0'\n");
    place.run(&[], None).stopped(1, &["rt", "Rattle kit", "not on the path", "crates/day/out/day."]);
    place.rt(UNCHANGED);
    assert_eq!(place.run(&[], None).out, "0 1 0\n");
}

/// Two at a time in one clone: the second one waits until the first has proved, and says so.
#[test]
fn one_at_a_time() {
    let place = Place::copied("together");
    symlink(tool("flock"), place.folder.join("tools/flock")).unwrap();
    programs::write(&place.program(), "#!/bin/sh\necho '0 1 0'\n");
    place.rt(&format!("echo begins >>'{0}'\nsleep 1\necho ends >>'{0}'\n{UNCHANGED}", place.folder.join("log").display()));
    let children = [0, 1].map(|_| programs::start(place.command(&["-"]).stdin(Stdio::null())));
    let waits = children.map(|child| {
        let done = child.wait_with_output().unwrap();
        assert!(done.status.success() && done.stdout == b"0 1 0\n", "{done:?}");
        String::from_utf8(done.stderr).unwrap().contains("waiting for it")
    });
    assert!(waits[0] != waits[1], "{waits:?}");
    assert_eq!(fs::read_to_string(place.folder.join("log")).unwrap(), "begins\nends\nbegins\nends\n");
}

/// A line for each crate that is proved now, when it is reported; none for the others.
#[test]
fn progress() {
    let place = Place::copied("progress");
    let program = place.program();
    let (bin, go) = (program.parent().unwrap().display().to_string(), place.folder.join("go"));
    // It goes on when the file is there, and gives up after half a minute.
    place.rt(&format!(
        "echo 'fn one::first: proved'
        echo 'crate one: modules loaded=40 checked=0'
        echo 'logic=proved functions=1 native=nat,char,string logic-built=trusted'
        echo 'rt: chose --jobs 2 for two'
        echo 'fn two::second: proved'
        echo 'library one: modules loaded=23 checked=0'
        sleep 2
        echo 'crate two: modules loaded=0 checked=33'
        echo 'logic=proved functions=1 native=nat,char,string logic-built=trusted'
        tries=0
        until [ -e '{}' ]; do sleep 0.1; tries=$((tries + 1)); [ $tries -lt 300 ] || exit 2; done
        mkdir -p '{bin}' && printf '#!/bin/sh\\ncat\\n' >'{bin}/day' && chmod +x '{bin}/day'
        echo 'crate day: modules loaded=23 checked=31'
        echo 'axioms std: none reached of the 2 declared'
        echo 'logic=proved functions=1 axioms=3 target=x86_64-unknown-linux-gnu'
        echo 'rt: running out/day; to give it other input, run that file yourself'
        echo '3 0 0'",
        go.display()
    ));
    let mut child = programs::start(place.command(&["-"]).stdin(Stdio::piped()));
    child.stdin.take().unwrap().write_all(b"0 1 0\n").unwrap();
    let said = lines(child.stderr.take().unwrap());
    let mut all = Vec::new();
    while !all.last().is_some_and(|line: &String| line.starts_with("  proved")) {
        all.push(said.recv_timeout(Duration::from_secs(60)).expect("no progress before the end"));
    }
    fs::write(go, "").unwrap();
    let done = child.wait_with_output().unwrap();
    all.extend(said);
    assert!(done.status.success() && done.stdout == b"0 1 0\n", "{all:?}");
    assert!(all[0].contains("3 crates") && all[0].contains("minutes the first time"), "{all:?}");
    let seconds = |line: &str, start: &str| -> u64 { line.strip_prefix(start).and_then(|rest| rest.strip_suffix(" s)")).unwrap().parse().unwrap() };
    assert!((1..60).contains(&seconds(&all[1], "  proved 2 of 3: two (")), "{all:?}");
    assert!((0..60).contains(&seconds(&all[2], "  proved 3 of 3: day (")), "{all:?}");
    assert!(all[3].starts_with("Site: "), "{all:?}");
    // The second time nothing is proved.
    place.rt(UNCHANGED);
    let again = place.run(&["-"], Some(b"0 1 0\n"));
    assert!(again.status == Some(0) && again.out == "0 1 0\n" && again.said().len() == 4, "{again:?}");
    assert!(!again.err.contains("minutes") && !again.err.contains("  proved"), "{again:?}");
}

/// What `rt` said is printed whole, and a program of an earlier time is not run.
#[test]
fn not_built() {
    let place = Place::copied("not_built");
    let report = "crate one: modules loaded=0 checked=40\nlogic=proved functions=1\nerror: a goal\n  of two lines\n\
        logic=not-proved functions=1\nrt: the library two did not build, so nothing above it was checked\n";
    place.rt(&format!("printf '%s' '{report}' >&2; exit 1"));
    for earlier in [false, true] {
        if earlier {
            programs::write(&place.program(), "#!/bin/sh\necho '0 1 0'\n");
        }
        let done = place.run(&[], None);
        assert!(done.status == Some(1) && done.out.is_empty(), "{done:?}");
        assert!(done.err.ends_with(&format!("{report}The day program was not built.\n")), "{done:?}");
    }
    // A success without a program.
    place.rt("echo 'logic=proved functions=0'");
    fs::remove_file(place.program()).unwrap();
    let done = place.run(&[], None);
    assert!(done.status == Some(1) && done.out.is_empty(), "{done:?}");
    assert!(done.err.ends_with("logic=proved functions=0\nThe day program was not built.\n"), "{done:?}");
}
