//! Runs that are killed: the book is whole, and the next edit cleans up.

mod common;

use common::{again, edit_to, folder_with, given, leftovers, mode, names, state, Faults};
use std::collections::BTreeSet;
use std::fs;
use std::path::Path;
use std::process::{Child, Stdio};
use std::thread::sleep;
use std::time::Duration;

#[test]
fn killed_before_it_is_there_the_next_edit_removes_it() {
    if let Some(book) = given() {
        let edited = edit_to(&book, b"new");
        panic!("it was not killed: {edited:?}");
    }
    let (folder, book) = folder_with("desk.book", b"old");
    let faults = Faults::build();
    let mut seen = BTreeSet::new();
    for call in ["fchown", "fsync file", "rename"] {
        let before = state(&book);
        faults.kill(
            killed_before_it_is_there_the_next_edit_removes_it,
            &book,
            call,
        );
        assert_eq!(state(&book), before, "killed at {call}");
        // one only: the one before was removed
        let [name] = &leftovers(folder.path())[..] else {
            panic!("killed at {call}: {:?}", names(folder.path()));
        };
        let digits = name.strip_prefix(".seddolki-").unwrap();
        let number = u128::from_str_radix(digits, 16).unwrap();
        assert_eq!(format!("{number:032x}"), digits);
        assert!(seen.insert(number));
    }
    assert!(edit_to(&book, b"new").is_ok());
    assert_eq!(fs::read(&book).unwrap(), b"new");
    assert_eq!(names(folder.path()), ["desk.book"]);
}

#[test]
fn until_it_is_there_only_its_user_reads_it() {
    if let Some(book) = given() {
        let edited = edit_to(&book, b"new");
        panic!("it was not killed: {edited:?}");
    }
    let (folder, book) = folder_with("desk.book", b"old");
    let test = until_it_is_there_only_its_user_reads_it;
    Faults::build().kill(test, &book, "fchown");
    let left = folder.path().join(&leftovers(folder.path())[0]);
    assert_eq!(mode(&left), 0o600);
    assert_eq!(fs::read(&left).unwrap(), b"new");
}

/// What an edit and the next one write.
const VERSIONS: [&[u8]; 2] = [&[b'a'; 50_000], &[b'b'; 70_000]];

fn edit_for_ever(book: &Path) -> ! {
    loop {
        for version in VERSIONS {
            assert!(edit_to(book, version).is_ok());
        }
    }
}

/// Waits for the first edit of a process, and for a moment more.
fn let_edit(editor: &mut Child, book: &Path, moment: Duration) {
    let written = || fs::metadata(book).unwrap().modified().unwrap();
    let before = written();
    while written() == before {
        assert_eq!(editor.try_wait().unwrap(), None);
        sleep(Duration::from_millis(1));
    }
    sleep(moment);
}

#[test]
fn killed_at_any_moment_a_book_is_whole() {
    if let Some(book) = given() {
        edit_for_ever(&book);
    }
    let (folder, book) = folder_with("desk.book", VERSIONS[0]);
    let mut left = 0;
    for round in 0..60 {
        let mut command = again(killed_at_any_moment_a_book_is_whole, &book);
        let mut editor = command.stdout(Stdio::null()).spawn().unwrap();
        let_edit(&mut editor, &book, Duration::from_micros(97 * round));
        editor.kill().unwrap();
        editor.wait().unwrap();
        let bytes = fs::read(&book).unwrap();
        assert!(VERSIONS.contains(&&bytes[..]), "{} bytes", bytes.len());
        left += leftovers(folder.path()).len();
    }
    println!("{left} of 60 killed runs left a file");
    assert!(edit_to(&book, b"new").is_ok());
    assert_eq!(names(folder.path()), ["desk.book"]);
}
