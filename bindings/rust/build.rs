//! Links the archive `libdispatch_c.a`: that of the repository in which this package stands, or that of the folder DISPATCH_LIB_DIR.

use std::env;
use std::path::{Path, PathBuf};

fn stop(why: &str) -> ! {
    eprintln!("{why}");
    std::process::exit(1);
}

fn main() {
    println!("cargo:rerun-if-changed=build.rs");
    println!("cargo:rerun-if-env-changed=DISPATCH_LIB_DIR");
    let here = env::var_os("CARGO_MANIFEST_DIR").expect("cargo sets CARGO_MANIFEST_DIR");
    let named = env::var_os("DISPATCH_LIB_DIR").filter(|folder| !folder.is_empty());
    let folder = named.map_or_else(|| Path::new(&here).join("../../crates/dispatch_c/out"), PathBuf::from);
    // Cargo runs this in the package's own folder, not where the user is.
    if folder.is_relative() {
        stop(&format!("DISPATCH_LIB_DIR is {}; it has to be an absolute path.", folder.display()));
    }
    let archive = folder.join("libdispatch_c.a");
    println!("cargo:rerun-if-changed={}", archive.display());
    if !archive.is_file() {
        stop(&format!(
            "There is no {}.\nMake it with `rt lib` in crates/dispatch_c of the repository of the release desk. If it is elsewhere, name its folder in \
             DISPATCH_LIB_DIR, as an absolute path.",
            archive.display()
        ));
    }
    println!("cargo:rustc-link-search=native={}", folder.display());
    println!("cargo:rustc-link-lib=static=dispatch_c");
}
