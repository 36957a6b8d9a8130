//! What the documents name is there: the files of `docs/TRACE.md` and `docs/WRONG-ANSWERS.md`, the names said to stand in them, and every must-fail edit.

use std::collections::BTreeSet;
use std::fs;
use std::path::{Path, PathBuf};

const PARTS: [&str; 4] = ["specs", "src", "proofs", "must-fail"];

fn root() -> PathBuf {
    Path::new(env!("CARGO_MANIFEST_DIR")).join("../..")
}

fn document(name: &str) -> String {
    fs::read_to_string(root().join("docs").join(name)).expect("a document")
}

/// A word of a cell, where it names a file of a crate: CRATE/PART/FILE, an edit without its ending.
fn named_file(word: &str) -> Option<PathBuf> {
    let word = word.trim_matches(|c: char| !c.is_alphanumeric());
    let mut steps = word.split('/');
    let (_, part) = (steps.next()?, steps.next()?);
    steps.next()?;
    if !PARTS.contains(&part) {
        return None;
    }
    let ending = if part == "must-fail" { ".edit" } else { "" };
    Some(root().join("crates").join(format!("{word}{ending}")))
}

fn of_a_name(c: char) -> bool {
    c.is_alphanumeric() || c == '_' || c == '-'
}

/// Whether a text has a name as a word of its own.
fn has_name(text: &str, name: &str) -> bool {
    text.match_indices(name).any(|(at, _)| {
        let before = text[..at].chars().next_back();
        let behind = text[at + name.len()..].chars().next();
        !before.is_some_and(of_a_name) && !behind.is_some_and(of_a_name)
    })
}

/// The names in a piece of a cell, each between two back ticks; of `Factor::power` the last part.
fn names(piece: &str) -> impl Iterator<Item = &str> {
    piece
        .split('`')
        .skip(1)
        .step_by(2)
        .map(|name| name.rsplit("::").next().unwrap_or(name))
}

/// What is wrong with a piece of a cell: a file that is not there, or a name that it does not have.
fn faults(piece: &str) -> Vec<String> {
    let Some(file) = piece.split_whitespace().find_map(named_file) else {
        return Vec::new();
    };
    let Ok(text) = fs::read_to_string(&file) else {
        return vec![format!("no {}", file.display())];
    };
    names(piece)
        .filter(|name| !has_name(&text, name))
        .map(|name| format!("no {name} in {}", file.display()))
        .collect()
}

fn edits() -> BTreeSet<String> {
    let mut found = BTreeSet::new();
    for entry in fs::read_dir(root().join("crates")).expect("the crates") {
        let name = entry
            .expect("a crate")
            .file_name()
            .into_string()
            .expect("a crate's name");
        let Ok(folder) = fs::read_dir(root().join("crates").join(&name).join("must-fail")) else {
            continue;
        };
        for edit in folder {
            let edit = edit
                .expect("an edit")
                .file_name()
                .into_string()
                .expect("an edit's name");
            found.insert(format!(
                "{name}/must-fail/{}",
                edit.trim_end_matches(".edit")
            ));
        }
    }
    found
}

fn pieces(text: &str) -> impl Iterator<Item = &str> {
    text.lines()
        .filter(|line| line.starts_with('|'))
        .flat_map(|line| line.split(['|', ';']))
}

#[test]
fn files_and_names_of_the_trace_are_there() {
    let trace = document("TRACE.md");
    let named = pieces(&trace)
        .filter(|piece| {
            piece
                .split_whitespace()
                .any(|word| named_file(word).is_some())
        })
        .count();
    assert!(named > 200, "the trace names {named} files");
    let faults: Vec<String> = pieces(&trace).flat_map(faults).collect();
    assert_eq!(faults, Vec::<String>::new());
}

#[test]
fn every_edit_is_a_wrong_answer_and_every_wrong_answer_has_its_edit() {
    let wrong = document("WRONG-ANSWERS.md");
    let faults: Vec<String> = pieces(&wrong).flat_map(faults).collect();
    assert_eq!(faults, Vec::<String>::new());
    let edits = edits();
    assert!(edits.len() > 40);
    let unnamed: Vec<&String> = edits
        .iter()
        .filter(|edit| !has_name(&wrong, edit))
        .collect();
    assert_eq!(unnamed, Vec::<&String>::new());
}
