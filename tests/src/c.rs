//! Programs in C and C++ over `include/dispatch.h` and the archive.

use std::fs;
use std::path::{Path, PathBuf};
use std::process::Command;

/// The repository's folder.
pub fn root() -> PathBuf {
    Path::new(env!("CARGO_MANIFEST_DIR")).join("..")
}

/// The archive of the calls, which `rt lib` makes.
pub fn archive() -> PathBuf {
    root().join("crates/dispatch_c/out/libdispatch_c.a")
}

/// Builds the program with a compiler and a standard, with every warning an error.
pub fn build(compiler: &str, standard: &str, name: &str, source: &str) -> PathBuf {
    let folder = root().join("target/c");
    fs::create_dir_all(&folder).unwrap();
    let (file, program) = (folder.join(format!("{name}.{compiler}")), folder.join(name));
    fs::write(&file, source).unwrap();
    let language = if compiler == "c++" { "c++" } else { "c" };
    let built = Command::new(compiler)
        .args([&format!("-std={standard}"), "-Wall", "-Wextra", "-Werror", "-pedantic", "-I"])
        .arg(root())
        .args(["-x", language])
        .arg(&file)
        .args(["-x", "none"])
        .arg(archive())
        .arg("-o")
        .arg(&program)
        .output()
        .unwrap_or_else(|error| panic!("{compiler} does not start: {error}"));
    assert!(built.status.success(), "{compiler} -std={standard}: {}", String::from_utf8_lossy(&built.stderr));
    program
}

/// Builds the program and runs it in the repository's folder: what it prints.
pub fn run_as(compiler: &str, standard: &str, name: &str, source: &str) -> String {
    let program = build(compiler, standard, name, source);
    let done = Command::new(&program).current_dir(root()).output().unwrap();
    assert!(done.status.success(), "{name} ended with {}: {}", done.status, String::from_utf8_lossy(&done.stderr));
    String::from_utf8(done.stdout).unwrap()
}

/// Builds the program in C and runs it.
pub fn run(name: &str, source: &str) -> String {
    run_as("cc", "gnu11", name, source)
}
