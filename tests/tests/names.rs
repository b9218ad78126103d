//! Every name in backticks in docs/PROMISES.md and docs/DECISIONS.md is there: a file, a crate, an item of the code, a definition, a law, a field
//! of a record, a case of a type, an edit or a test.

use std::collections::{HashMap, HashSet};
use std::fs;
use std::path::{Path, PathBuf};

/// What the repository declares.
#[derive(Default)]
struct Names {
    root: PathBuf,
    crates: HashSet<String>,
    libraries: HashSet<String>,
    files: HashSet<String>,
    /// Items of a crate's code.
    items: HashMap<String, HashSet<String>>,
    /// Edits of a crate.
    edits: HashMap<String, HashSet<String>>,
    /// Fields of the records and cases of the types of each name.
    members: HashMap<String, HashSet<String>>,
    /// Every declared or imported name.
    all: HashSet<String>,
}

fn is_name(c: char) -> bool {
    c.is_alphanumeric() || c == '-' || c == '_' || c == '\''
}

/// The first name of a text, after any of these words.
fn first_name<'a>(text: &'a str, skipped: &[&str]) -> &'a str {
    text.split(|c: char| !is_name(c)).find(|word| !word.is_empty() && !skipped.contains(word)).unwrap_or("")
}

/// The files of a folder, but for what is made: target/, and the out/ of a crate, in which rt keeps copies and libraries.
fn walk(folder: &Path, found: &mut Vec<PathBuf>) {
    for entry in fs::read_dir(folder).unwrap().map(|entry| entry.unwrap().path()) {
        if entry.is_dir() {
            if !["target", "out"].iter().any(|made| entry.file_name().unwrap() == *made) {
                walk(&entry, found);
            }
        } else {
            found.push(entry);
        }
    }
}

impl Names {
    fn of(root: PathBuf) -> Names {
        let mut names = Names { root: root.clone(), ..Names::default() };
        // It is always there, and listed nowhere.
        names.libraries.insert("std".to_string());
        // dispatch_c staticlib: dispatch draw_c ..
        for line in fs::read_to_string(root.join("crates.txt")).unwrap().lines().map(|line| line.split('#').next().unwrap()) {
            let Some((name, builds_on)) = line.split_once(':') else { continue };
            names.crates.insert(first_name(name, &[]).to_string());
            names.libraries.extend(builds_on.split_whitespace().map(str::to_string));
        }
        let mut found = Vec::new();
        walk(&root.join("crates"), &mut found);
        walk(&root.join("tests/tests"), &mut found);
        walk(&root.join("tests/src"), &mut found);
        walk(&root.join("bindings"), &mut found);
        walk(&root.join("include"), &mut found);
        for path in found {
            let file = path.file_name().unwrap().to_string_lossy().to_string();
            let place = path.strip_prefix(&root).unwrap().to_string_lossy().to_string();
            // The package of bindings/rust is named dispatch.
            let krate = if place.starts_with("bindings/rust") { "dispatch" } else { place.split('/').nth(1).unwrap() }.to_string();
            names.files.insert(file.clone());
            match file.rsplit_once('.') {
                Some((label, "edit")) => drop(names.edits.entry(krate).or_default().insert(label.to_string())),
                Some((_, "rt" | "rs")) => names.add_code(&krate, &fs::read_to_string(&path).unwrap()),
                Some((_, "h")) => names
                    .all
                    .extend(fs::read_to_string(&path).unwrap().split(|c: char| !is_name(c)).filter(|word| word.starts_with("DISPATCH_")).map(str::to_string)),
                Some((_, "antt")) => names.add_definitions(&fs::read_to_string(&path).unwrap()),
                _ => {}
            }
        }
        names
    }

    /// Functions, types, constants, modules, and the cases of enums.
    fn add_code(&mut self, krate: &str, text: &str) {
        let mut cases = false;
        for line in text.lines() {
            let words: Vec<&str> = line.split_whitespace().filter(|word| !matches!(*word, "pub" | "extern" | "\"C\"")).collect();
            if let ["fn" | "struct" | "enum" | "const" | "mod", rest @ ..] = words.as_slice() {
                let name = first_name(&rest.join(" "), &[]).to_string();
                self.items.entry(krate.to_string()).or_default().insert(name.clone());
                self.all.insert(name);
            }
            if let ["use", path] = words.as_slice() {
                // passed on under the crate's own name
                let name = path.trim_end_matches(';').rsplit("::").next().unwrap();
                self.items.entry(krate.to_string()).or_default().insert(name.to_string());
            }
            if cases && line.starts_with("    ") {
                self.all.insert(first_name(line, &[]).to_string());
            }
            cases = line.contains("enum ") || cases && !line.starts_with('}');
            self.add_imports(line);
        }
    }

    /// Definitions and laws, records with their fields, types with their cases.
    fn add_definitions(&mut self, text: &str) {
        let (mut owner, mut depth) = (String::new(), 0);
        for line in text.lines() {
            let indent = line.len() - line.trim_start().len();
            let words: Vec<&str> = line.split_whitespace().collect();
            if words.is_empty() || line.trim_start().starts_with("--") {
                continue;
            }
            if indent <= depth {
                owner.clear();
            }
            self.add_imports(line);
            let kind = words.iter().find(|word| **word != "pub").unwrap();
            let name = words.iter().skip_while(|word| *word != kind).nth(1).unwrap_or(&"{");
            if matches!(*kind, "record" | "data") && name.chars().all(is_name) {
                (owner, depth) = (name.to_string(), indent);
                self.all.insert(owner.clone());
                self.members.entry(owner.clone()).or_default();
            } else if let Some((head, _)) = line.split_once(" :") {
                for name in head.split_whitespace().filter(|word| !matches!(*word, "pub" | "abbrev" | "unfoldable")) {
                    self.all.insert(name.to_string());
                    if !owner.is_empty() {
                        self.members.get_mut(&owner).unwrap().insert(name.to_string());
                    }
                }
            }
        }
    }

    /// The names that a file takes from elsewhere, the kit's libraries among them.
    fn add_imports(&mut self, line: &str) {
        if let Some(path) = line.trim_start().trim_start_matches("ghost ").strip_prefix("use ") {
            let named = path.split_once(" as ").or_else(|| path.split_once('{')).map_or("", |(_, names)| names);
            self.all.extend(named.split(|c: char| !is_name(c)).map(str::to_string));
        }
    }

    fn has_member(&self, owner: &str, member: &str) -> bool {
        self.members.get(owner).is_some_and(|members| members.contains(member))
    }

    fn has_edit(&self, krate: &str, label: &str) -> bool {
        self.edits.get(krate).is_some_and(|edits| edits.contains(label))
    }

    fn has_path(&self, token: &str) -> bool {
        let path = token.trim_end_matches('/');
        let whole = self.root.join(path).exists();
        let in_crate = self.root.join("crates").join(path).exists();
        let edit = path.split_once('/').is_some_and(|(krate, label)| self.has_edit(krate, label));
        whole || in_crate || edit || self.crates.iter().any(|name| self.root.join("crates").join(name).join(path).exists())
    }

    fn has_item(&self, krate: &str, item: &str) -> bool {
        let kit = self.libraries.contains(krate) && !self.crates.contains(krate);
        kit || self.items.get(krate).is_some_and(|items| items.contains(first_name(item, &[])))
    }

    fn has_word(&self, word: &str) -> bool {
        let edit = self.edits.values().any(|edits| edits.contains(word));
        self.all.contains(word) || self.crates.contains(word) || self.libraries.contains(word) || edit || matches!(word, "requires" | "ensures")
    }

    /// Whether what stands in backticks is there. `owner` is the record or type named last: `.x` is a member of it.
    fn knows(&self, token: &str, owner: &mut String) -> bool {
        if token.contains('/') {
            return self.has_path(token);
        }
        if let Some((krate, item)) = token.split_once("::") {
            return self.has_item(krate, item);
        }
        if [".antt", ".rs", ".rt", ".h", ".md", ".txt", ".bin"].iter().any(|ending| token.ends_with(ending)) {
            return self.files.contains(token) || self.root.join(token).exists();
        }
        if let Some(member) = token.strip_prefix('.').filter(|member| member.chars().all(is_name)) {
            return self.has_member(owner, member);
        }
        if let Some((name, member)) = token.split_once('.').filter(|(name, member)| !name.is_empty() && (name.to_string() + member).chars().all(is_name)) {
            *owner = name.to_string();
            return self.has_member(name, member);
        }
        // An expression: small words behind the first one stand for any value.
        let words: Vec<&str> = token.split(|c: char| !is_name(c)).filter(|word| !word.is_empty()).collect();
        if words.len() == 1 {
            if self.members.contains_key(words[0]) {
                *owner = words[0].to_string();
            }
            return self.has_word(words[0]);
        }
        let any_value = |word: &str| word.len() < 2 || word.chars().all(|c| c.is_lowercase() || c.is_numeric());
        words.iter().enumerate().filter(|(at, word)| *at == 0 && word.len() > 1 || !any_value(word)).all(|(_, word)| self.has_word(word))
    }

    /// The names of a document that are nowhere, each with its line.
    fn dangling(&self, document: &str) -> Vec<String> {
        let mut missing = Vec::new();
        let mut owner = String::new();
        for (number, line) in document.lines().enumerate() {
            for token in line.split('`').skip(1).step_by(2) {
                if !self.knows(token, &mut owner) {
                    missing.push(format!("line {}: {token}", number + 1));
                }
            }
        }
        missing
    }
}

fn names() -> Names {
    Names::of(Path::new(env!("CARGO_MANIFEST_DIR")).join(".."))
}

#[test]
fn every_name_is_there() {
    let names = names();
    for document in ["docs/PROMISES.md", "docs/DECISIONS.md"] {
        let missing = names.dangling(&fs::read_to_string(names.root.join(document)).unwrap());
        assert!(missing.is_empty(), "{document} names what is nowhere:\n{}", missing.join("\n"));
    }
}

#[test]
fn a_name_that_is_nowhere_is_noticed() {
    let names = names();
    let right = "`Demand1.exactly`, `.opens`, `time::after`, `Calls.antt`, `crates/day/stdout`, `always_18`, `meaning/always_18`, `lowest (refusals ..)`";
    assert_eq!(names.dangling(right), Vec::<String>::new());
    for wrong in [
        "`Demand1.nowhere`",
        "`Demand1.exactly`, `.nowhere`",
        "`time::before`",
        "`Cells.antt`",
        "`crates/day/nowhere`",
        "`always_19`",
        "`time/always_18`",
        "`highest (refusals ..)`",
    ] {
        assert_eq!(names.dangling(wrong).len(), 1, "{wrong}");
    }
}
