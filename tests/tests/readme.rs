//! README.md's programs in C, built and run as they are printed there, and its run of `./day`. (Its program in Rust is run by `binding.rs`.)

#![cfg(not(feature = "standin"))]

use dispatch_tests::c;
use dispatch_tests::docs::{block, text};
use std::process::Command;

/// The program that makes this call prints what stands below the command that builds it.
fn program(name: &str, call: &str) {
    let readme = text("README.md");
    let prints = c::run(name, &block(&readme, "c", call));
    let shown = block(&readme, "text", &format!("$ cc {name}.c"));
    let (_, wanted) = shown.split_once('\n').unwrap();
    assert_eq!(prints, wanted);
}

/// From the line about the site on, what `./day` says and prints on the worked example.
#[test]
fn run_line_by_line() {
    let shown = block(&text("README.md"), "text", "$ ./day\n");
    let done = Command::new("./day").current_dir(c::root()).output().unwrap();
    let said = String::from_utf8(done.stderr).unwrap();
    let printed = String::from_utf8(done.stdout).unwrap();
    let wanted = format!("{}{printed}", &said[said.find("Site:").unwrap()..]);
    assert_eq!(&shown[shown.find("Site:").unwrap()..], wanted);
    // On a repository that is built already the crates are not proved again, but there are as many.
    let crates = said.split(" of its ").nth(1).and_then(|rest| rest.split(' ').next()).unwrap();
    assert!(shown.contains(&format!("the day program, {crates} crates")) && shown.contains(&format!("  proved {crates} of {crates}: day")), "{said}");
}

#[test]
fn first_program_in_c() {
    program("first", "dispatch_route");
}

#[test]
fn travel_program_in_c() {
    program("travel", "dispatch_travel");
}
