//! `./test` in a small tree with made-up commands: it adds up what they report, and what the tree has and they do not report is a failure.

#![cfg(not(feature = "standin"))]

use dispatch_tests::{c, programs};
use std::fs;
use std::path::PathBuf;
use std::process::{Command, Stdio};

/// What the commands report of the tree below, in the lines of the real ones, some of them shortened.
const PROVED: &str = "\
== one
fn one::first: proved
empty contracts: 0 found; tried 1 of 1 functions
logic=proved functions=1 native=nat,char,string logic-built=trusted libraries-built=trusted statements=trusted
rt: one proved
rt: one: trying its must-fail edits (1)
== prints
fn prints::main: proved
logic=proved functions=1 axioms=3 target=x86_64-unknown-linux-gnu cpu=x86-64-v2
linked target=x86_64-unknown-linux-gnu loader=/lib64/ld-linux-x86-64.so.2 files=out/prints.o
rt: prints proved
rt: two is kept: an earlier run on this machine proved the same files over the same libraries
rt: must-fail one/wrong.edit: refused, as it must be: ./proofs/first/Answers.antt:8:13: error: `returns`: the two types differ
rt: two: 1 of its 2 must-fail edits were tried by an earlier run on this machine, and nothing that they stand on has changed
rt: must-fail two/empty_1.edit: refused, as it must be
rt: must-fail two/wrong.edit: refused, as it must be: ./proofs/Theorems.antt:12:9: error: `rises`: the two types differ
rt: prints ran, and wrote what its file stdout has
rt: prints ran (built by Rattle's own compiler), and wrote what its file stdout has
rt: ok; handles allowed: none; must-fail edits: 3 refused; done in this run: 2 of the 3 proofs (of crates and of their tests) and 2 of the 3 must-fail edits; the others are kept from earlier runs of the same files on this machine
6 passed, 0 failed
";
const BUILT: &str = "\
rt: chose --jobs 2 for dispatch_c
fn dispatch_c::dispatch_open: proved
crate dispatch_c: modules loaded=34 checked=0
logic=proved functions=9 target=x86_64-unknown-linux-gnu cpu=x86-64-v2
";
const RUN: &str = "\
rt: chose --jobs 2 for day
fn day::main: proved
crate day: modules loaded=23 checked=31
logic=proved functions=1 axioms=3 target=x86_64-unknown-linux-gnu cpu=x86-64-v2
rt: running out/day; to give it other input, run that file yourself
3 0 0
";
const BINDINGS: &str = "\
   Compiling bindings v0.1.0 (bindings/rust)
    Finished `release` profile [optimized] target(s) in 2.53s
     Running unittests src/lib.rs (bindings/rust/target/release/deps/bindings-9df61dd5b5c1c7c4)

running 1 test
test tests::fits ... ok

test result: ok. 1 passed; 0 failed; 0 ignored; 0 measured; 0 filtered out; finished in 0.00s

   Doc-tests bindings

running 2 tests
test src/lib.rs - (line 1) ... ok
test src/lib.rs - travel (line 10) ... ok

test result: ok. 2 passed; 0 failed; 0 ignored; 0 measured; 0 filtered out; finished in 0.11s

";
const TESTS: &str = "\
    Finished `release` profile [optimized] target(s) in 0.01s
     Running unittests src/lib.rs (tests/target/release/deps/own-a7dc289c74712907)

running 0 tests

test result: ok. 0 passed; 0 failed; 0 ignored; 0 measured; 0 filtered out; finished in 0.00s

     Running tests/own.rs (tests/target/release/deps/own-eae5fbd58f8016d9)

running 2 tests
test first ... ok
test second ... ok

test result: ok. 2 passed; 0 failed; 0 ignored; 0 measured; 0 filtered out; finished in 0.12s

   Doc-tests own

running 1 test
test src/lib.rs - Readme (line 5) ... ok

test result: ok. 1 passed; 0 failed; 0 ignored; 0 measured; 0 filtered out; finished in 0.11s

";

/// The files of the tree: three crates, three edits, a program, three tests and three documentation tests, and some that look like such. Also the
/// folders in which the archive and the day program are made; crates.txt leaves these out, so they are no crates here.
const FILES: [(&str, &str); 16] = [
    ("crates.txt", "# libraries\none:\ntwo staticlib: one\n\n# a program\nprints: two one # prints: none\n"),
    ("crates/one/must-fail/wrong.edit", "file: src/lib.rt\n"),
    ("crates/two/must-fail/wrong.edit", "file: src/lib.rt\n"),
    ("crates/two/must-fail/empty_1.edit", "file: src/lib.rt\n"),
    ("crates/two/must-fail/notes.md", ""),
    ("crates/prints/stdout", "1\n"),
    ("crates/prints/data/stdout", "1\n"),
    ("crates/dispatch_c/src/lib.rt", ""),
    ("crates/day/src/lib.rt", ""),
    ("README.md", "```text\n$ ./day\n```\n\n```rust\nlet x = 1;\n```\n\n```c\nint x;\n```\n"),
    ("tests/src/lib.rs", "//! - `one`: a module.\n#[cfg(doctest)]\n#[doc = include_str!(\"../../README.md\")]\npub struct Readme;\n"),
    ("tests/src/bin/tool.rs", "//! ```\n//! let x = 1;\n//! ```\nfn main() {}\n"),
    ("tests/tests/own.rs", "/// ```\n/// let x = 1;\n/// ```\n#[test]\nfn first() {}\n\n#[test]\nfn second() {}\n// #[test]\n"),
    ("tests/target/debug/build/out.rs", "#[test]\nfn third() {}\n"),
    (
        "bindings/rust/src/lib.rs",
        "//! ```rust,no_run\n//! let x = 1;\n//! ```\n//! ```text\n//! x\n//! ```\n\n/// ```\n/// let x = 1;\n/// ```\npub fn travel() {}\n\nmod tests;\n",
    ),
    ("bindings/rust/src/tests.rs", "    #[test]\n    fn fits() {}\n"),
];

/// The made-up commands print what the tree's folder `said` has for them, and keep what they are called with. Their input is there and empty.
const RT: &str = "#!/bin/sh
case $PWD in
*/crates/*) top=../.. call=\"rt $* in ${PWD##*/}\" ;;
*) top=. call=\"rt $*\" ;;
esac
said=$top/said
echo \"$call\" >>$said/calls
env >>$said/env
cat >>$said/input || exit 3
if flock -n $top/day true; then echo free; else echo held; fi >>$said/lock
case $call in
'rt lib in dispatch_c') mkdir -p out && cp $said/archive out/libdispatch_c.a ;;
'rt run in day') mkdir -p out && cp -p $said/program out/day ;;
esac
cat \"$said/$1\"
exit \"$(cat \"$said/$1.status\")\"
";
const CARGO: &str = "#!/bin/sh
echo \"cargo $*\" >>said/calls
env >>said/env
cat >>said/input || exit 3
if flock -n day true; then echo free; else echo held; fi >>said/lock
case $* in *bindings*) name=bindings ;; *) name=tests ;; esac
while IFS= read -r line; do
    case $line in '   '*) echo \"$line\" >&2 ;; *) echo \"$line\" ;; esac
done <\"said/$name\"
exit \"$(cat \"said/$name.status\")\"
";

struct Tree {
    folder: PathBuf,
}

impl Tree {
    /// The tree, with commands that report all of it. It is outside the repository, where rt ci takes no second crates.txt.
    fn new(name: &str) -> Tree {
        let folder = std::env::temp_dir().join(format!("gate_{}", std::process::id())).join(name);
        let _ = fs::remove_dir_all(&folder);
        let tree = Tree { folder };
        for (file, text) in FILES {
            tree.write(file, text);
        }
        for (command, text) in [("ci", PROVED), ("lib", BUILT), ("run", RUN), ("bindings", BINDINGS), ("tests", TESTS)] {
            tree.says(command, text, 0);
        }
        tree.write("said/archive", "archive");
        programs::write(&tree.folder.join("said/program"), "#!/bin/sh\n");
        for (file, text) in [("kit/rt", RT), ("kit/cargo", CARGO)] {
            programs::write(&tree.folder.join(file), text);
        }
        for file in ["test", ".ci/run", "day"] {
            programs::copy(&c::root().join(file), &tree.folder.join(file));
        }
        tree
    }

    fn write(&self, file: &str, text: &str) {
        let file = self.folder.join(file);
        fs::create_dir_all(file.parent().unwrap()).unwrap();
        fs::write(file, text).unwrap();
    }

    fn says(&self, command: &str, text: &str, status: i32) {
        self.write(&format!("said/{command}"), text);
        self.write(&format!("said/{command}.status"), &status.to_string());
    }

    /// The command to run the gate as it is run for a change, without an input.
    fn command(&self) -> Command {
        self.shell("exec bash .ci/run <&-")
    }

    fn shell(&self, line: &str) -> Command {
        let mut command = Command::new("bash");
        let path = std::env::join_paths([self.folder.join("kit")].into_iter().chain(std::env::split_paths(&std::env::var_os("PATH").unwrap())));
        command.args(["-c", line]).current_dir(&self.folder).env("PATH", path.unwrap()).env("CI", "true");
        command
    }

    fn run(&self, command: &mut Command) -> Gate {
        let child = programs::start(command.stdin(Stdio::null()));
        let done = child.wait_with_output().unwrap();
        let printed = String::from_utf8(done.stdout).unwrap();
        let short = printed.lines().filter_map(|line| line.strip_prefix("SHORT: ")).map(str::to_string).collect();
        let calls = fs::read_to_string(self.folder.join("said/calls")).unwrap_or_default().lines().map(str::to_string).collect();
        let last = printed.lines().last().unwrap_or_default().to_string();
        Gate { ended_well: done.status.success(), last, short, calls, said: String::from_utf8(done.stderr).unwrap() }
    }

    fn gate(&self) -> Gate {
        self.run(&mut self.command())
    }
}

impl Drop for Tree {
    fn drop(&mut self) {
        let _ = fs::remove_dir_all(&self.folder);
        // The folder of all trees goes with the last of them.
        let _ = fs::remove_dir(self.folder.parent().unwrap());
    }
}

/// A run of the gate that has ended.
#[derive(Debug)]
struct Gate {
    ended_well: bool,
    last: String,
    short: Vec<String>,
    calls: Vec<String>,
    said: String,
}

impl Gate {
    fn fails(&self, last: &str, short: &[&str]) {
        assert!(!self.ended_well && self.last == last && self.short == short, "{last} {short:?}, but {self:?}");
    }
}

/// All but the archive and the day program is counted: three crates, three edits, the program's run, three tests and three documentation tests.
const ALL: &str = "13 passed, 0 failed";

#[test]
fn everything_is_reported() {
    let tree = Tree::new("everything");
    let gate = tree.gate();
    assert!(gate.ended_well && gate.last == ALL && gate.short.is_empty() && gate.said.is_empty(), "{gate:?}");
    let cargo = "cargo test --offline --release --no-fail-fast --manifest-path";
    let calls = ["rt ci", "rt lib in dispatch_c", "rt run in day"].map(str::to_string);
    let tests = ["bindings/rust", "tests"].map(|package| format!("{cargo} {package}/Cargo.toml"));
    assert_eq!(gate.calls, [&calls[..], &tests].concat());
    assert_eq!(fs::read_to_string(tree.folder.join("said/input")).unwrap(), "");
    // While it proves, `./day` waits. The tests, which run `./day`, find it free.
    assert_eq!(fs::read_to_string(tree.folder.join("said/lock")).unwrap(), "held\nheld\nheld\nfree\nfree\n");
    // From another folder, where CDPATH leads elsewhere; with the names in another order; and where all was done in this run, with an edit that
    // met a limit of the prover, which rt counts as refused.
    let kept = "two is kept: an earlier run on this machine proved the same files over the same libraries";
    let report = PROVED.replace(kept, "two proved").replace("3 refused;", "3 refused, 1 of them only by a limit, 0 bad;");
    let mut proved: Vec<&str> = report.lines().collect();
    let at = |start: &str| PROVED.lines().position(|line| line.starts_with(start)).unwrap();
    proved.swap(at("rt: one proved"), at("rt: two is kept"));
    proved.swap(at("rt: must-fail one/wrong"), at("rt: must-fail two/wrong"));
    tree.says("ci", &(proved.join("\n") + "\n"), 0);
    tree.write("elsewhere/everything/file", "");
    let above = tree.folder.join("..");
    let gate = tree.run(tree.shell("exec bash everything/test").env("CDPATH", tree.folder.join("elsewhere")).current_dir(above));
    assert!(gate.ended_well && gate.last == ALL, "{gate:?}");
}

/// One report in which one thing is changed.
#[test]
fn less_is_reported() {
    let tree = Tree::new("less");
    let ok = |tests: usize| format!("ok. {tests} passed; 0 failed; 0 ignored; 0 measured; 0 filtered out");
    let tests = |tests: usize, rest: &str| format!("ok. {tests} passed; 0 failed; {rest}");
    for (command, report, from, to, last, short) in [
        ("ci", PROVED, "rt: one proved\n", "", "13 passed, 1 failed", "crates proved: no report of one"),
        ("ci", PROVED, "rt: one proved\n", "rt: two proved\n", "13 passed, 1 failed", "crates proved: no report of one"),
        ("ci", PROVED, "rt: one proved\n", "rt: one: its tests are proved\n", "13 passed, 1 failed", "crates proved: no report of one"),
        ("ci", PROVED, "rt: one proved\n", "rt: one NOT PROVED\n", "13 passed, 1 failed", "crates proved: no report of one"),
        ("ci", PROVED, "rt: two is kept: an earlier", "rt: one is kept: an earlier", "13 passed, 1 failed", "crates proved: no report of two"),
        ("ci", PROVED, "is kept: an earlier run on this machine proved", "is not kept", "13 passed, 1 failed", "crates proved: no report of two"),
        ("ci", PROVED, "rt: must-fail two/wrong.edit: refused, ", "", "13 passed, 1 failed", "must-fail edits refused: no report of two/wrong"),
        ("ci", PROVED, "one/wrong.edit: refused", "one/wrong.edit: tried", "13 passed, 1 failed", "must-fail edits refused: no report of one/wrong"),
        ("ci", PROVED, "one/wrong.edit: refused", "one/wrong.edit: NOT REFUSED", "13 passed, 1 failed", "must-fail edits refused: no report of one/wrong"),
        ("ci", PROVED, "two/empty_1.edit: refused", "two/empty_1.edit: BAD EDIT", "13 passed, 1 failed", "must-fail edits refused: no report of two/empty_1"),
        ("ci", PROVED, "3 refused;", "3 refused, 1 bad;", "13 passed, 1 failed", "must-fail edits: 1 bad"),
        ("ci", PROVED, "3 refused;", "3 refused, 2 of them only by a limit, 10 bad;", "13 passed, 1 failed", "must-fail edits: 10 bad"),
        ("ci", PROVED, "rt: ok; ", "rt: ", "13 passed, 1 failed", "rt ci: there is no line 'rt: ok'"),
        ("ci", PROVED, "rt: prints ran, and wrote", "rt: prints has", "12 passed, 1 failed", "programs run: no report of prints"),
        ("tests", TESTS, &ok(2), &ok(1), "12 passed, 1 failed", "tests in tests/: 1 of 2 were run"),
        ("tests", TESTS, &ok(2), &ok(0), "11 passed, 1 failed", "tests in tests/: 0 of 2 were run"),
        ("tests", TESTS, &ok(1), &ok(0), "12 passed, 1 failed", "documentation tests in tests/: 0 of 1 were run"),
        ("bindings", BINDINGS, &ok(1), &ok(0), "12 passed, 1 failed", "tests in bindings/: 0 of 1 were run"),
        ("bindings", BINDINGS, &ok(2), &ok(1), "12 passed, 1 failed", "documentation tests in bindings/: 1 of 2 were run"),
        ("tests", TESTS, &ok(2), &tests(2, "1 ignored; 0 measured; 0 filtered out"), "13 passed, 1 failed", LEFT_OUT),
        ("tests", TESTS, &ok(2), &tests(2, "0 ignored; 1 measured; 0 filtered out"), "13 passed, 1 failed", LEFT_OUT),
        ("tests", TESTS, &ok(2), &tests(2, "0 ignored; 0 measured; 1 filtered out"), "13 passed, 1 failed", LEFT_OUT),
        ("tests", TESTS, &ok(1), &tests(1, "1 ignored; 0 measured; 0 filtered out"), "13 passed, 1 failed", LEFT_OUT),
    ] {
        assert_eq!(report.matches(from).count(), 1, "{from}");
        tree.says(command, &report.replace(from, to), 0);
        tree.gate().fails(last, &[short]);
        tree.says(command, report, 0);
    }
    // Two of a kind are one failure, and those of one package do not make up for those of the other, nor documentation tests for tests.
    tree.says("ci", &PROVED.replace("rt: one proved", "one").replace("rt: two is kept", "two"), 0);
    tree.gate().fails("13 passed, 1 failed", &["crates proved: no report of one, two"]);
    // A bad edit is missed by its name and by the count.
    tree.says("ci", &PROVED.replace("two/wrong.edit: refused, as it must be", "two/wrong.edit: BAD EDIT").replace("3 refused;", "2 refused, 1 bad;"), 0);
    tree.gate().fails("13 passed, 2 failed", &["must-fail edits refused: no report of two/wrong", "must-fail edits: 1 bad"]);
    tree.says("ci", PROVED, 0);
    tree.says("tests", &TESTS.replace(&ok(2), &ok(9)).replace(&ok(1), &ok(0)), 0);
    tree.says("bindings", &BINDINGS.replace(&ok(2), &ok(9)).replace(&ok(1), &ok(0)), 0);
    tree.gate().fails("25 passed, 2 failed", &["tests in bindings/: 0 of 1 were run", "documentation tests in tests/: 0 of 1 were run"]);
}

const LEFT_OUT: &str = "tests in tests/: 1 ignored, measured or filtered out";

/// A tree that has one thing more than is reported.
#[test]
fn more_is_there() {
    for (file, text, short) in [
        ("crates.txt", "one:\ntwo: one\nprints: two\nthree: two\n", "crates proved: no report of three"),
        ("crates/one/must-fail/wrong_2.edit", "", "must-fail edits refused: no report of one/wrong_2"),
        ("crates/three/must-fail/wrong.edit", "", "must-fail edits refused: no report of three/wrong"),
        ("crates/one/stdout", "", "programs run: no report of one"),
        ("crates/one/src/main.rt", "", "programs run: no report of one"),
        ("tests/src/more.rs", "#[test]\nfn more() {}\n", "tests in tests/: 2 of 3 were run"),
        ("tests/src/more.rs", "/// ```should_panic\n/// panic!();\n/// ```\nfn more() {}\n", "documentation tests in tests/: 1 of 2 were run"),
        ("bindings/rust/tests/more.rs", "#[test]\nfn more() {}\n", "tests in bindings/: 1 of 2 were run"),
        ("bindings/rust/src/more.rs", "//! ```\n//! let x = 1;\n//! ```\n", "documentation tests in bindings/: 2 of 3 were run"),
        ("README.md", "```rust\n```\n```\n```\n", "documentation tests in tests/: 1 of 2 were run"),
    ] {
        let tree = Tree::new("more");
        tree.write(file, text);
        tree.gate().fails("13 passed, 1 failed", &[short]);
    }
    // The repository's own documentation tests are counted.
    let tree = Tree::new("own");
    for file in ["lib.rs", "desk.rs", "calls.rs"] {
        fs::copy(c::root().join("bindings/rust/src").join(file), tree.folder.join("bindings/rust/src").join(file)).unwrap();
    }
    let gate = tree.gate();
    assert!(!gate.ended_well && gate.short.len() == 1 && gate.short[0].starts_with("documentation tests in bindings/: 2 of "), "{gate:?}");
}

/// A tree from which all of a kind is gone, as is what was reported of it.
#[test]
fn nothing_is_there() {
    let tree = Tree::new("nothing");
    tree.write("crates.txt", "# none\n");
    for folder in ["crates/one", "crates/two", "crates/prints", "tests", "bindings"] {
        fs::remove_dir_all(tree.folder.join(folder)).unwrap();
    }
    for command in ["ci", "bindings", "tests"] {
        tree.says(command, "", 0);
    }
    tree.gate().fails(
        "0 passed, 6 failed",
        &[
            "crates proved: the tree has none",
            "must-fail edits refused: the tree has none",
            "programs run: the tree has none",
            "rt ci: there is no line 'rt: ok'",
            "tests in bindings/: the tree has none",
            "tests in tests/: the tree has none",
        ],
    );
}

#[test]
fn command_says_nothing() {
    let tree = Tree::new("silent");
    tree.says("ci", "", 0);
    tree.gate().fails(
        "6 passed, 4 failed",
        &[
            "crates proved: no report of one, prints, two",
            "must-fail edits refused: no report of one/wrong, two/empty_1, two/wrong",
            "programs run: no report of prints",
            "rt ci: there is no line 'rt: ok'",
        ],
    );
    tree.says("ci", PROVED, 0);
    tree.says("bindings", "", 0);
    tree.gate().fails("10 passed, 2 failed", &["tests in bindings/: 0 of 1 were run", "documentation tests in bindings/: 0 of 2 were run"]);
    tree.says("bindings", BINDINGS, 0);
    tree.says("tests", "", 0);
    tree.gate().fails("10 passed, 2 failed", &["tests in tests/: 0 of 2 were run", "documentation tests in tests/: 0 of 1 were run"]);
    tree.says("tests", TESTS, 0);
    tree.write("said/archive", "");
    tree.gate().fails("13 passed, 1 failed", &["the archive: there is no crates/dispatch_c/out/libdispatch_c.a"]);
    tree.write("said/archive", "archive");
    fs::remove_file(tree.folder.join("said/program")).unwrap();
    fs::remove_file(tree.folder.join("crates/day/out/day")).unwrap();
    tree.gate().fails("13 passed, 1 failed", &["the day program: there is no crates/day/out/day"]);
}

/// Without a count of its failures, which then is one.
#[test]
fn command_fails() {
    let tree = Tree::new("fails");
    let calls = || fs::remove_file(tree.folder.join("said/calls"));
    // What builds on it is not tried.
    for report in ["rt: crates.txt: line 3: two is listed twice\n", "rt: crates.txt: two is on two lines\n0 passed, 1 failed\n"] {
        tree.says("ci", report, 2);
        let gate = tree.gate();
        gate.fails("0 passed, 1 failed", &[]);
        assert_eq!(gate.calls.len(), 1);
        calls().unwrap();
    }
    tree.says("ci", PROVED, 0);
    for (at, command, report) in [(2, "lib", BUILT), (3, "run", RUN)] {
        tree.says(command, "error: no such library\n", 2);
        let gate = tree.gate();
        gate.fails("7 passed, 1 failed", &[]);
        assert_eq!(gate.calls.len(), at);
        calls().unwrap();
        tree.says(command, report, 0);
    }
    // The other tests are run all the same.
    tree.says("bindings", "error: could not compile `bindings` (lib) due to 1 previous error\n", 101);
    let gate = tree.gate();
    gate.fails("10 passed, 3 failed", &["tests in bindings/: 0 of 1 were run", "documentation tests in bindings/: 0 of 2 were run"]);
    assert_eq!(gate.calls.len(), 5);
    // All is reported as passed, and yet the command fails.
    for (command, report) in [("bindings", BINDINGS), ("tests", TESTS), ("ci", PROVED)] {
        tree.says("bindings", BINDINGS, 0);
        tree.says(command, report, 1);
        tree.gate().fails(if command == "ci" { "6 passed, 1 failed" } else { "13 passed, 1 failed" }, &[]);
        tree.says(command, report, 0);
    }
}

#[test]
fn something_fails() {
    let tree = Tree::new("failed");
    let failed = |report: &str| report.replace("ok. 2 passed; 0 failed", "FAILED. 1 passed; 1 failed");
    tree.says("bindings", &failed(BINDINGS), 101);
    tree.gate().fails("12 passed, 1 failed", &[]);
    tree.says("tests", &failed(TESTS), 101);
    tree.gate().fails("11 passed, 2 failed", &[]);
    tree.says("bindings", BINDINGS, 0);
    tree.gate().fails("12 passed, 1 failed", &[]);
    // Also if the command does not say so in the end.
    tree.says("tests", &failed(TESTS), 0);
    tree.gate().fails("12 passed, 1 failed", &[]);
    let ci = "rt: one proved\nrt: two NOT PROVED\nrt: prints NOT PROVED: its library two failed\nrt: FAILED: two prints\n2 passed, 2 failed\n";
    tree.says("ci", ci, 1);
    tree.gate().fails("2 passed, 2 failed", &[]);
}

/// No setting of the caller that could weaken a check reaches the commands; where the tools are, RT_JOBS and TMPDIR do.
#[test]
fn settings_of_the_caller() {
    let tree = Tree::new("settings");
    let dropped = [
        "CALLS",
        "SCRIPTS",
        "SEED",
        "ROUTES",
        "SITES",
        "DESK_FAULT",
        "DISPATCH_LIB_DIR",
        "RT_BACKEND",
        "RT_SECONDS",
        "RT_ALLOW_C",
        "RUSTC",
        "RUSTC_WRAPPER",
        "RUSTFLAGS",
        "RUSTDOCFLAGS",
        "RUST_TEST_THREADS",
        "RUST_TEST_SHUFFLE",
        "CARGO_BUILD_TARGET",
        "CARGO_BUILD_RUSTFLAGS",
        "CARGO_ENCODED_RUSTFLAGS",
        "CARGO_INCREMENTAL",
        "CARGO_TARGET_DIR",
        "CARGO_TARGET_X86_64_UNKNOWN_LINUX_GNU_RUNNER",
        "CARGO_PROFILE_RELEASE_DEBUG_ASSERTIONS",
    ];
    let kept = ["RT_JOBS", "TMPDIR", "CARGO_HOME", "RUSTUP_HOME", "RUSTUP_TOOLCHAIN"];
    let mut command = tree.command();
    for name in dropped {
        command.env(name, "1");
    }
    for name in kept {
        command.env(name, &tree.folder);
    }
    command.env("CARGO_TERM_COLOR", "always").env("CARGO_TERM_QUIET", "true");
    let gate = tree.run(&mut command);
    assert!(gate.ended_well && gate.last == ALL, "{gate:?}");
    let settings = fs::read_to_string(tree.folder.join("said/env")).unwrap();
    let has = |name: &str| settings.lines().filter(|line| line.starts_with(&format!("{name}="))).count();
    for name in dropped {
        assert_eq!(has(name), 0, "{name} reaches a command");
    }
    for name in kept {
        assert_eq!(has(name), 5, "{name} does not reach each command");
    }
    // These are set otherwise, as the gate reads what cargo prints.
    for setting in ["CARGO_TERM_COLOR=never", "CARGO_TERM_QUIET=false"] {
        assert_eq!(settings.lines().filter(|line| *line == setting).count(), 5, "{setting}");
    }
}
