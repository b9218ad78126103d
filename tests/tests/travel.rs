//! Travel times: the desk's call, the generator program and the table in the source, against a dynamic programme written from 'Travel times' of
//! docs/FORMATS.md.

use dispatch_tests::desk::{self, Answer};
use dispatch_tests::travel::{self, is_run, LAST, LIMIT};

#[test]
fn every_entry() {
    for d in 0..=LAST {
        assert_eq!(desk::travel(d), travel::answer(d), "distance {d}");
    }
}

/// Entries that 'Travel times' of docs/FORMATS.md names: by the desk and by the dynamic programme.
#[test]
fn named_entries() {
    #[rustfmt::skip]
    let named = [
        (0, 0), (1, 2), (2, 3), (3, 4), (4, 4), (225, 30), (226, 31), (511, 50),
        (5, 5), (6, 5), (7, 6), (9, 6), (10, 7), (12, 7), (13, 8), (16, 8), (224, 30), (240, 31), (241, 32), (510, 49),
    ];
    for (d, ticks) in named {
        assert_eq!(desk::travel(d), Answer { number: 0, value: ticks, arrival: 0 }, "distance {d}");
        assert_eq!(travel::fewest(d), Some(ticks), "distance {d} by the dynamic programme");
    }
    assert_eq!(travel::fewest(512), None);
}

/// The answer to a distance above 511 is its number alone, also where the low 8, 9, 16 or 24 bits are a distance that has an entry.
#[test]
fn distances_above() {
    let refused = |d: u32| assert_eq!(desk::travel(d), Answer::plain(19), "distance {d}");
    for d in [512, 65_536, 4_294_967_295] {
        refused(d);
    }
    for d in 512..=70_000 {
        refused(d);
    }
    for k in 9..32 {
        refused(1 << k);
        refused((1 << k) + 1);
    }
    for k in 1..=65_535 {
        for d in [0, 1, 2, 225, 511, 512] {
            refused(k * 65_536 + d);
        }
    }
    for k in 1..=255 {
        for d in 0..=512 {
            refused(k * 16_777_216 + d);
        }
    }
    for d in u32::MAX - 70_000..=u32::MAX {
        refused(d);
    }
}

/// The dynamic programme against every run tried one by one. So few ticks never reach speed 15, but they do reach the small limits.
#[test]
fn every_run_of_few_ticks() {
    for limit in (0..=6).chain([LIMIT]) {
        for n in 0..=12 {
            assert_eq!(travel::greatest(limit, n), travel::tried(limit, n), "limit {limit}, {n} ticks");
        }
    }
}

#[test]
fn greatest_distances() {
    let greatest = |n: usize| travel::greatest(LIMIT, n);
    assert_eq!((0..=8).map(greatest).collect::<Vec<_>>(), [0, 0, 1, 2, 4, 6, 9, 12, 16]);
    // The limit is felt from 31 ticks on: each adds 15.
    assert_eq!((greatest(29), greatest(30), greatest(31)), (210, 225, 240));
    for n in 30..60 {
        assert_eq!(greatest(n + 1) - greatest(n), 15, "{} ticks", n + 1);
    }
}

/// Each entry of the desk is enough, by a run that is built here, and no number of ticks below it is.
#[test]
fn enough_and_no_fewer() {
    for d in 1..=LAST {
        let n = desk::travel(d).value;
        let speeds: Vec<u32> = (0..=n).map(|t| t.min(n - t).min(15)).collect();
        assert_eq!(speeds.len(), n as usize + 1);
        assert!(is_run(15, &speeds), "distance {d}: {speeds:?} is no run");
        let covered: u32 = speeds.iter().sum();
        assert!(covered >= d, "distance {d}: a run of {n} ticks covers {covered}");
        for fewer in 0..n as usize {
            let covered = travel::greatest(LIMIT, fewer);
            assert!(covered < d, "distance {d}: the entry is {n}, and a run of {fewer} ticks covers {covered}");
        }
    }
}

/// What counts as a run, by itself.
#[test]
fn runs() {
    for right in [&[0][..], &[0, 0], &[0, 1, 0], &[0, 1, 1, 2, 2, 1, 0, 0, 1, 0]] {
        assert!(is_run(2, right), "{right:?}");
    }
    for wrong in [&[][..], &[1], &[1, 0], &[0, 1], &[0, 2, 1, 0], &[0, 1, 2, 0], &[0, 1, 2, 3, 2, 1, 0]] {
        assert!(!is_run(2, wrong), "{wrong:?}");
    }
}

/// The numbers of the constant TICKS in a source: there is one such constant, and nothing but numbers, commas and white space in it.
fn table(source: &str) -> Result<Vec<u32>, String> {
    let [before, after] = source.split("const TICKS:").collect::<Vec<_>>()[..] else {
        return Err("the constant TICKS is not there exactly once".to_string());
    };
    // Not in a comment.
    if !matches!(before.rsplit('\n').next().unwrap().trim(), "" | "pub") {
        return Err("the constant TICKS does not begin its line".to_string());
    }
    let (sort, value) = after.split_once('=').ok_or("the constant TICKS has no value")?;
    if sort.trim() != "[u8; 512]" {
        return Err(format!("the constant TICKS is of {}", sort.trim()));
    }
    let (inside, after) = value.trim_start().strip_prefix('[').and_then(|value| value.split_once(']')).ok_or("the constant TICKS is no array")?;
    if !after.trim_start().starts_with(';') {
        return Err("the constant TICKS goes on behind its array".to_string());
    }
    let mut entries: Vec<&str> = inside.split(',').map(str::trim).collect();
    // Behind a comma at the end.
    if entries.last() == Some(&"") {
        entries.pop();
    }
    let number = |(d, text): (usize, &str)| match text.parse() {
        Ok(number) if text.bytes().all(|byte| byte.is_ascii_digit()) => Ok(number),
        _ => Err(format!("entry {d} is no number: {text:?}")),
    };
    entries.into_iter().enumerate().map(number).collect()
}

#[test]
fn how_the_source_is_read() {
    for right in [
        "const TICKS: [u8; 512] = [0, 2, 30];",
        "// The table.\npub const TICKS: [u8; 512] = [\n    0, 2,\n    30,\n];\n\nfn f() {}\n",
        "const TICKS: [u8; 512] =\n    [0,2,30];\n// const LAST: u32 = 511;",
    ] {
        assert_eq!(table(right), Ok(vec![0, 2, 30]), "{right}");
    }
    for wrong in [
        "",
        "const TACKS: [u8; 512] = [0, 2, 30];",
        "const TICKS: [u8; 512] = [0, 2, 30];\nconst TICKS: [u8; 512] = [0, 2, 30];",
        "// const TICKS: [u8; 512] = [0, 2, 30];",
        "const TICKS: [u8; 3] = [0, 2, 30];",
        "const TICKS: [u16; 512] = [0, 2, 30];",
        "const TICKS: [u8; 512] = OTHER;",
        "const TICKS: [u8; 512] = [0, 2, 30][..];",
        "const TICKS: [u8; 512] = [0, 2, 30",
        "const TICKS: [u8; 512] = [0; 512];",
        "const TICKS: [u8; 512] = [0, 2 30];",
        "const TICKS: [u8; 512] = [0, , 30];",
        "const TICKS: [u8; 512] = [0, 2, 30,,];",
        "const TICKS: [u8; 512] = [0, +2, 30];",
        "const TICKS: [u8; 512] = [0, 2u8, 30];",
        "const TICKS: [u8; 512] = [0, 2, // 3\n 30];",
    ] {
        assert!(table(wrong).is_err(), "{wrong}");
    }
}

/// What has no stand-in: the generator program, the table in the source, and the call from C.
#[cfg(not(feature = "standin"))]
mod built {
    use super::{table, travel, LAST};
    use dispatch_tests::c;
    use std::fs::{self, File};
    use std::io::Seek;
    use std::path::Path;
    use std::process::{Command, Stdio};

    /// What the generator prints, in a folder of the test's own without any file but the input, which it leaves unread.
    fn generated(test: &str) -> String {
        let folder = Path::new(env!("CARGO_TARGET_TMPDIR")).join(test);
        let _ = fs::remove_dir_all(&folder);
        fs::create_dir_all(&folder).unwrap();
        let path = folder.join("input");
        fs::write(&path, "7\n".repeat(512)).unwrap();
        let mut input = File::open(&path).unwrap();
        let program = c::root().join("crates/travel_generator/out/travel_generator");
        let done = Command::new(&program)
            .current_dir(&folder)
            .stdin(Stdio::from(input.try_clone().unwrap()))
            .output()
            .unwrap_or_else(|error| panic!("{} does not start: {error}", program.display()));
        assert!(done.status.success(), "the generator ends with {}", done.status);
        assert!(done.stderr.is_empty(), "the generator writes to standard error");
        assert_eq!(input.stream_position().unwrap(), 0, "the generator reads its input");
        String::from_utf8(done.stdout).unwrap()
    }

    #[test]
    fn generator() {
        let text = generated("travel_generator");
        for (d, line) in text.split_terminator('\n').enumerate() {
            let entry = travel::fewest(d as u32).map(|ticks| ticks.to_string());
            assert_eq!(Some(line), entry.as_deref(), "line {} of the generator, distance {d}", d + 1);
        }
        // Also that no line is missing, and each ends with a line feed.
        let wanted: String = (0..=LAST).map(|d| format!("{}\n", travel::fewest(d).unwrap())).collect();
        assert!(text == wanted, "the generator prints {} line feeds, not 512", text.matches('\n').count());
    }

    #[test]
    fn source_carries_what_is_generated() {
        let source = fs::read_to_string(c::root().join("crates/travel/src/lib.rt")).expect("crates/travel/src/lib.rt");
        let carried = table(&source).unwrap();
        let generated: Vec<u32> = generated("travel_source").lines().map(|line| line.parse().unwrap()).collect();
        for (d, (in_source, printed)) in carried.iter().zip(&generated).enumerate() {
            assert_eq!(in_source, printed, "distance {d}: the source's entry and the generator's");
        }
        assert_eq!((carried.len(), generated.len()), (512, 512), "entries of the source and of the generator");
    }

    /// The whole words, as the header declares the call.
    #[test]
    fn words_in_c() {
        let source = r#"
#include <inttypes.h>
#include <stdio.h>
#include "include/dispatch.h"
int main(void) {
    static const uint32_t distances[] = {0, 1, 225, 511, 512, 65536, 4294967295};
    for (size_t i = 0; i < sizeof distances / sizeof *distances; i++) {
        uint64_t word = dispatch_travel(distances[i]);
        printf("%" PRIu64 " ", word);
    }
}
"#;
        assert_eq!(c::run("travel_words", source), "0 512 7680 12800 19 19 19 ");
    }
}
