//! What `docs/TRACE.md` and `docs/WRONG-ANSWERS.md` name is declared: every name in the file that it stands behind.

use std::collections::BTreeSet;
use std::fs;
use std::path::{Path, PathBuf};

const PARTS: [&str; 4] = ["specs", "src", "proofs", "must-fail"];

/// What may stand before a declaration, and what begins one.
const BEFORE: [&str; 6] = ["pub", "unfoldable", "abbrev", "ghost", "extern", "\"C\""];
const BEGINS: [&str; 8] = [
    "record", "data", "fn", "struct", "enum", "const", "static", "mod",
];

fn root() -> PathBuf {
    Path::new(env!("CARGO_MANIFEST_DIR")).join("../..")
}

fn document(name: &str) -> String {
    fs::read_to_string(root().join("docs").join(name)).expect("a document")
}

/// All files below a folder whose names end so.
fn files(folder: &Path, ending: &str) -> Vec<PathBuf> {
    let mut found = Vec::new();
    for entry in fs::read_dir(folder).expect("a folder") {
        let path = entry.expect("an entry").path();
        if path.is_dir() {
            found.extend(files(&path, ending));
        } else if path.to_string_lossy().ends_with(ending) {
            found.push(path);
        }
    }
    found
}

/// A word of a cell, where it names a file of a crate: CRATE/PART/FILE, an edit without its ending.
fn named_file(word: &str) -> Option<PathBuf> {
    let word = word.trim_matches(|c: char| !c.is_alphanumeric());
    let mut steps = word.split('/');
    let (_, part) = (steps.next()?, steps.next()?);
    steps.next()?;
    if !PARTS.contains(&part) {
        return None;
    }
    let ending = if part == "must-fail" { ".edit" } else { "" };
    Some(root().join("crates").join(format!("{word}{ending}")))
}

fn of_a_name(c: char) -> bool {
    c.is_alphanumeric() || c == '_' || c == '-'
}

/// What a line declares: `pub fn NAME(`, `record NAME`, `NAME : ..`, or `NAME` alone before a line with its type.
fn declared(line: &str) -> Option<&str> {
    let mut words = line
        .split_whitespace()
        .skip_while(|word| BEFORE.contains(word));
    let first = words.next()?;
    if BEGINS.contains(&first) {
        return words.next()?.split(|c| !of_a_name(c)).next();
    }
    let signed = words.next().map_or(line.starts_with("pub "), |w| w == ":");
    signed.then_some(first)
}

/// The names that some texts declare.
fn names<'a>(texts: impl IntoIterator<Item = &'a String>) -> BTreeSet<&'a str> {
    texts
        .into_iter()
        .flat_map(|text| text.lines().filter_map(declared))
        .collect()
}

fn texts(folder: &str, ending: &str) -> Vec<String> {
    files(&root().join(folder), ending)
        .iter()
        .filter(|file| !file.to_string_lossy().contains("/target/"))
        .map(|file| fs::read_to_string(file).expect("a text"))
        .collect()
}

/// What is wrong with a piece of a cell: a file that is not there, or a name that the file before it does not declare. A name with no file
/// of a crate before it is a file of the tree, a crate, or is among the names `anywhere`.
fn faults(piece: &str, anywhere: &BTreeSet<&str>) -> Vec<String> {
    let mut found = Vec::new();
    let mut before: Option<String> = None;
    for (k, part) in piece.split('`').enumerate() {
        if k % 2 == 0 {
            for file in part.split_whitespace().filter_map(named_file) {
                let Ok(text) = fs::read_to_string(&file) else {
                    found.push(format!("no {}", file.display()));
                    continue;
                };
                before = (!file.to_string_lossy().ends_with(".edit")).then_some(text);
            }
            continue;
        }
        let name = part.rsplit("::").next().unwrap_or(part);
        let there = match &before {
            Some(text) => names([text]).contains(name),
            None => {
                anywhere.contains(name)
                    || [part, &format!("crates/{part}")]
                        .iter()
                        .any(|path| root().join(path).exists())
            }
        };
        if !there {
            found.push(format!("no {name} where '{}' has it", piece.trim()));
        }
    }
    found
}

/// What is wrong with the tables of a document.
fn wrong(document: &str) -> Vec<String> {
    let texts: Vec<String> = [("crates", ".antt"), ("crates", ".rt"), ("host", ".rs")]
        .iter()
        .flat_map(|(folder, ending)| texts(folder, ending))
        .collect();
    let anywhere = names(&texts);
    document
        .lines()
        .filter(|line| line.starts_with('|'))
        .flat_map(|line| line.split(['|', ';']))
        .flat_map(|piece| faults(piece, &anywhere))
        .collect()
}

#[test]
fn names_of_the_trace_are_declared() {
    let trace = document("TRACE.md");
    let named = trace.split_whitespace().filter_map(named_file).count();
    assert!(named > 200, "the trace names {named} files");
    assert_eq!(wrong(&trace), Vec::<String>::new());
}

#[test]
fn names_of_the_wrong_answers_are_declared() {
    assert_eq!(wrong(&document("WRONG-ANSWERS.md")), Vec::<String>::new());
}

/// A name that the file uses and another declares, a test that is gone, and a file that is not there.
#[test]
fn a_name_that_stands_elsewhere_is_seen() {
    let text =
        "kept-worst (baseOf e)\n  pub kept-least : (w : Loss) -> Least w\npub worst-is\n    : T\n"
            .to_string();
    assert_eq!(names([&text]), BTreeSet::from(["kept-least", "worst-is"]));
    let anywhere = BTreeSet::from(["a_test"]);
    assert_eq!(
        faults("margin/proofs/Discarding.antt `kept-worst`", &anywhere),
        Vec::<String>::new()
    );
    assert_eq!(
        faults("margin/proofs/Choosing.antt `kept-worst`", &anywhere).len(),
        1
    );
    assert_eq!(faults("compare, `a_test`", &anywhere), Vec::<String>::new());
    assert_eq!(faults("compare, `a_test_that_went`", &anywhere).len(), 1);
    assert_eq!(faults("margin/proofs/NoSuch.antt", &anywhere).len(), 1);
}
