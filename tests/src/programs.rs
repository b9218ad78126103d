//! Made-up commands that tests write and start.

use std::fs;
use std::os::unix::fs::PermissionsExt;
use std::path::Path;
use std::process::{Child, Command, Stdio};
use std::sync::Mutex;

/// Held while a program is written and while one is started. What is started has all open files for a moment, and a program that is open for
/// writing can't be run.
static STARTS: Mutex<()> = Mutex::new(());

pub fn set_mode(file: &Path, mode: u32) {
    fs::set_permissions(file, fs::Permissions::from_mode(mode)).unwrap();
}

/// Writes a program, with the folders above it.
pub fn write(file: &Path, text: &str) {
    let _held = STARTS.lock().unwrap();
    fs::create_dir_all(file.parent().unwrap()).unwrap();
    let _ = fs::remove_file(file);
    fs::write(file, text).unwrap();
    set_mode(file, 0o755);
}

/// Copies a program, with the folders above it.
pub fn copy(from: &Path, to: &Path) {
    let _held = STARTS.lock().unwrap();
    fs::create_dir_all(to.parent().unwrap()).unwrap();
    fs::copy(from, to).unwrap();
}

/// Starts a command whose two outputs are read.
pub fn start(command: &mut Command) -> Child {
    let _held = STARTS.lock().unwrap();
    command.stdout(Stdio::piped()).stderr(Stdio::piped()).spawn().unwrap_or_else(|error| panic!("{command:?} does not start: {error}"))
}
