//! Writes a moving picture of a shift: replays FOLDER/script on FOLDER/site.bin and writes FOLDER/shift.svg, which a browser shows.
//!
//!     cargo run --offline --release --example picture -- FOLDER
//!
//! `./day --picture FOLDER` of the repository makes the archive first, and then runs this.
//!
//! The picture shows the board as the script leaves it: the lights and closures that stand at its end, each at the ticks that it holds.
//!
//! This program is outside the proof. What is proved is the place that `dispatch_draw` gives for a step and a frame; these are the places that
//! are written here.
//!
//! Status: 0 if the picture is written, 1 if it can't be, 2 if a file is missing or can't be read or no folder is named, 3 if the site is refused
//! or has no centres. Unless it is 0, a picture that was there stays.

mod hall;
mod script;
mod svg;
mod track;

use dispatch::{Desk, Refusal};
use hall::Hall;
use std::fs::{self, File};
use std::io::{self, Read};
use std::path::Path;
use std::process::{self, ExitCode};
use track::Track;

/// One byte more than a site file may have, so that a longer one is refused and not cut.
const SITE_BYTES: u64 = 65_537;

/// The areas of the day program: the bytes of a board, and the words that a route searches in.
const DAY_BOARD_BYTES: usize = 65_536;
const DAY_WORK_WORDS: usize = 16_384;

/// Why there is no picture, and the status that goes with it.
struct Fault {
    status: u8,
    words: String,
}

fn main() -> ExitCode {
    let words: Vec<_> = std::env::args_os().skip(1).collect();
    let [folder] = &words[..] else {
        eprintln!("usage: picture FOLDER\nIt replays FOLDER/script on FOLDER/site.bin, and writes FOLDER/shift.svg.");
        return ExitCode::from(2);
    };
    match write_picture(Path::new(folder)) {
        Ok(()) => ExitCode::SUCCESS,
        Err(Fault { status, words }) => {
            eprintln!("{words}");
            ExitCode::from(status)
        }
    }
}

fn write_picture(folder: &Path) -> Result<(), Fault> {
    let [site_file, script_file, picture_file] = ["site.bin", "script", "shift.svg"].map(|name| folder.join(name));
    let site = read(&site_file, SITE_BYTES)?;
    let mut desk = Desk::open(&site).map_err(|refusal| refused("The site", &site_file, refusal))?;
    // A light of no steps from state 0, which every site has: it is drawn unless there are no centres.
    let nothing = [&[16, 0, 15][..], &[0; 15]].concat();
    desk.draw(&nothing, 0, 0).map_err(|refusal| refused("No picture can be drawn: the site", &site_file, refusal))?;
    let hall = Hall::read(&site);
    let shift = script::replay(&mut desk, &read(&script_file, u64::MAX)?);
    if let Some(field) = shift.ended_at {
        eprintln!("The script ends at field {field}, which has another tag or length, or is cut: what stands before it is drawn.");
    }
    if desk.sizes().board_bytes() > DAY_BOARD_BYTES || desk.sizes().work_words() > DAY_WORK_WORDS {
        eprintln!("The day program has no room for this hall or its routes, and answers 7 or 14. The picture has: it shows what larger areas give.");
    }
    let tracks: Result<Vec<Track>, Refusal> = shift.lights.values().map(|light| Track::of(&desk, &hall, light)).collect();
    let tracks = tracks.map_err(|refusal| refused("A posted light of the site", &site_file, refusal))?;
    let text = svg::picture(&hall, &tracks, &shift.closures);
    write(&picture_file, &text).map_err(|error| Fault { status: 1, words: format!("{} can't be written: {error}", picture_file.display()) })?;
    eprintln!(
        "Picture: {}, {} bytes; tugs: {}, closures: {}; ticks 0 to {} in {} seconds, and again",
        picture_file.display(),
        text.len(),
        tracks.len(),
        shift.closures.len(),
        hall.horizon,
        svg::seconds(&hall)
    );
    Ok(())
}

fn refused(what: &str, file: &Path, refusal: Refusal) -> Fault {
    Fault { status: 3, words: format!("{what} {} is refused: {}, {}", file.display(), refusal.number(), refusal.text()) }
}

/// At most so many bytes of a file. A pipe or a device is not read, as that might not end.
fn read(path: &Path, most: u64) -> Result<Vec<u8>, Fault> {
    let mut bytes = Vec::new();
    let result = match fs::metadata(path) {
        Ok(data) if !data.is_file() => Err(io::Error::other("it is not a file")),
        Ok(_) => File::open(path).and_then(|file| file.take(most).read_to_end(&mut bytes)),
        Err(error) => Err(error),
    };
    match result {
        Ok(_) => Ok(bytes),
        Err(error) => Err(Fault { status: 2, words: format!("{} can't be read: {error}", path.display()) }),
    }
}

/// Under another name first, so that the file is there as a whole, or as it was.
fn write(path: &Path, text: &str) -> io::Result<()> {
    let part = path.with_extension(format!("svg.{}.part", process::id()));
    let result = fs::write(&part, text).and_then(|()| fs::rename(&part, path));
    if result.is_err() {
        let _ = fs::remove_file(&part);
    }
    result
}
