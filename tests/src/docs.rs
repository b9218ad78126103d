//! What the documents and the header say, for the tests that compare it with what is so.

use crate::{c, four};
use std::fs;

/// A file of the repository, as text.
pub fn text(path: &str) -> String {
    fs::read_to_string(c::root().join(path)).unwrap_or_else(|error| panic!("{path}: {error}"))
}

/// The blocks of a document that begin with a fence of this kind.
pub fn blocks(document: &str, kind: &str) -> Vec<String> {
    let all = document.split("```").skip(1).step_by(2);
    all.filter_map(|block| block.strip_prefix(kind)?.strip_prefix('\n')).map(str::to_string).collect()
}

/// The one block of this kind that holds the mark.
pub fn block(document: &str, kind: &str, mark: &str) -> String {
    let found: Vec<String> = blocks(document, kind).into_iter().filter(|block| block.contains(mark)).collect();
    assert_eq!(found.len(), 1, "blocks {kind} with {mark}");
    found.into_iter().next().unwrap()
}

/// The bytes of a text in hexadecimal digits; what stands behind # in a line is a remark.
pub fn bytes(hex: &str) -> Vec<u8> {
    let plain: String = hex.lines().map(|line| line.split('#').next().unwrap()).collect();
    let digits: String = plain.chars().filter(|c| !c.is_whitespace()).collect();
    assert!(digits.chars().all(|c| c.is_ascii_hexdigit()) && digits.len() % 2 == 0, "no bytes: {hex}");
    four::hex(&digits)
}

/// The cells of the table that has this first row, row by row.
pub fn table(document: &str, first_row: &str) -> Vec<Vec<String>> {
    let rows = document.lines().skip_while(|line| *line != first_row).skip(2).take_while(|line| line.starts_with('|'));
    let cells = |row: &str| row.trim_matches('|').split('|').map(|cell| cell.trim().to_string()).collect();
    let table: Vec<Vec<String>> = rows.map(cells).collect();
    assert!(!table.is_empty(), "no table {first_row}");
    table
}

/// A number of the header: its name without `DISPATCH_`, the number itself and its text.
#[derive(Clone, PartialEq, Eq, Debug)]
pub struct Numbered {
    pub name: String,
    pub number: u8,
    pub text: String,
}

/// The list DISPATCH_NUMBERS of the header.
pub fn header_numbers() -> Vec<Numbered> {
    let entries = text("include/dispatch.h");
    let entries = entries.lines().filter_map(|line| line.trim_start().strip_prefix("X(DISPATCH_"));
    let read = |entry: &str| {
        let (name, rest) = entry.split_once(", ").unwrap();
        let (number, rest) = rest.split_once(", \"").unwrap();
        Numbered { name: name.to_string(), number: number.parse().unwrap(), text: rest.rsplit_once("\")").unwrap().0.to_string() }
    };
    entries.map(read).collect()
}
