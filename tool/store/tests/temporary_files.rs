//! Temporary files: never followed, none left by a run that ends, and only
//! those that killed runs left are removed.

mod common;

use common::{
    edit_to, folder_with, given, leftovers, make_fifo, names, open_folder, reason, run, state,
    Faults, AT_ONCE,
};
use seddolki_store::{create, read_at_most, write_output};
use std::ffi::OsStr;
use std::fs;
use std::os::unix::ffi::OsStrExt;
use std::os::unix::fs::symlink;

#[test]
fn only_what_matches_wholly_is_removed() {
    let (folder, book) = folder_with("desk.book", b"old");
    let at = |name: &str| folder.path().join(name);
    let digits = "0123456789abcdef0123456789abcde";
    let kept = [
        format!(".seddolki-{digits}"),
        format!(".seddolki-{digits}ff"),
        format!(".seddolki-{digits}F"),
        format!(".seddolki-{digits}g"),
        format!(".seddolki-{digits}f.new"),
        format!("seddolki-{digits}f"),
        format!("a.seddolki-{digits}f"),
    ];
    kept.iter()
        .for_each(|name| fs::write(at(name), b"").unwrap());
    fs::create_dir(at(&format!(".seddolki-{digits}0"))).unwrap();
    make_fifo(&at(&format!(".seddolki-{digits}1")));
    symlink("desk.book", at(&format!(".seddolki-{digits}2"))).unwrap();
    let before = names(folder.path());
    for digit in ["3", "a", "f"] {
        fs::write(at(&format!(".seddolki-{digits}{digit}")), b"left").unwrap();
    }
    assert!(edit_to(&book, b"new").is_ok());
    assert_eq!(names(folder.path()), before);
}

#[test]
fn a_planted_link_is_not_followed() {
    if let Some(path) = given() {
        let exists = |failure: String| assert!(failure.ends_with(": file exists"), "{failure}");
        exists(reason(edit_to(&path, b"new")));
        exists(reason(create(
            &path.with_file_name("other"),
            b"new",
            &AT_ONCE,
        )));
        return;
    }
    let (folder, book) = folder_with("desk.book", b"old");
    let (_elsewhere, victim) = folder_with("victim", b"precious");
    // even where all names can be guessed
    let planted = folder.path().join(format!(".seddolki-{}", "0".repeat(32)));
    symlink(&victim, &planted).unwrap();
    let before = (state(&book), state(&victim), state(&planted));
    run(&mut Faults::build().again(a_planted_link_is_not_followed, &book, "random", "0"));
    assert_eq!((state(&book), state(&victim), state(&planted)), before);
    assert_eq!(names(folder.path()).len(), 2);
}

#[test]
fn names_of_every_length_and_kind_work() {
    let folder = open_folder();
    let names = [
        "a".repeat(255).into_bytes(),
        b"caf\xe9.book".to_vec(),
        b"two\nlines\x1b[2J".to_vec(),
        b"--".to_vec(),
    ];
    for name in names {
        let book = folder.path().join(OsStr::from_bytes(&name));
        assert!(create(&book, b"old", &AT_ONCE).is_ok());
        assert!(edit_to(&book, b"new").is_ok());
        assert_eq!(fs::read(&book).unwrap(), b"new");
    }
    assert!(leftovers(folder.path()).is_empty());
}

/// An error of the system by its number.
const INPUT_OUTPUT: &str = "5";

fn assert_input_output(failure: String) {
    assert!(failure.ends_with(": input/output error"), "{failure}");
}

#[test]
fn whatever_fails_an_edit_leaves_none() {
    if let Some(book) = given() {
        return assert_input_output(reason(edit_to(&book, b"new")));
    }
    let faults = Faults::build();
    let (folder, book) = folder_with("desk.book", b"old");
    let before = state(&book);
    for call in ["fchown", "fchmod", "fsync file", "rename"] {
        run(&mut faults.again(
            whatever_fails_an_edit_leaves_none,
            &book,
            call,
            INPUT_OUTPUT,
        ));
        assert_eq!(state(&book), before, "where {call} fails");
        assert_eq!(names(folder.path()), ["desk.book"], "where {call} fails");
    }
}

#[test]
fn whatever_fails_a_new_file_leaves_none() {
    if let Some(book) = given() {
        return assert_input_output(reason(create(&book, b"new", &AT_ONCE)));
    }
    let faults = Faults::build();
    let folder = open_folder();
    let book = folder.path().join("desk.book");
    for call in ["fsync file", "link"] {
        run(&mut faults.again(
            whatever_fails_a_new_file_leaves_none,
            &book,
            call,
            INPUT_OUTPUT,
        ));
        assert!(names(folder.path()).is_empty(), "where {call} fails");
    }
}

#[test]
fn a_file_with_such_a_name_is_refused_and_stays() {
    let (folder, book) = folder_with(".seddolki-00112233445566778899aabbccddeeff", b"old");
    let kept = "has a name that is kept for temporary files";
    for failure in [
        reason(edit_to(&book, b"new")),
        reason(create(&book, b"new", &AT_ONCE)),
        reason(read_at_most(&book, 10)),
        reason(write_output(&book, b"new", true, &[], &AT_ONCE)),
    ] {
        assert!(failure.ends_with(kept), "{failure}");
    }
    assert_eq!(fs::read(&book).unwrap(), b"old");
    assert_eq!(names(folder.path()).len(), 1);
}
