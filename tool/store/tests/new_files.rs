//! New files: whole or not at all, and never in another file's place.

mod common;

use common::{
    edit_to, folder_with, given, mode, names, open_folder, reason, run, state, Faults, AT_ONCE,
};
use seddolki_store::create;
use std::fs;
use std::os::unix::fs::{symlink, MetadataExt};
use std::path::Path;

#[test]
fn a_new_file_has_its_bytes_and_the_usual_mode() {
    let folder = open_folder();
    let book = folder.path().join("desk.book");
    create(&book, b"new", &AT_ONCE).unwrap();
    assert_eq!(fs::read(&book).unwrap(), b"new");
    assert_eq!(fs::metadata(&book).unwrap().nlink(), 1);
    assert_eq!(names(folder.path()), ["desk.book"]);
    let usual = folder.path().join("usual");
    fs::write(&usual, b"").unwrap();
    assert_eq!(mode(&book), mode(&usual));
}

#[test]
fn the_mask_is_taken_from_the_mode() {
    if let Some(folder) = given() {
        assert!(create(&folder.join("desk.book"), b"new", &AT_ONCE).is_ok());
        return;
    }
    for (mask, expected) in [("027", 0o640), ("000", 0o666), ("077", 0o600)] {
        let folder = open_folder();
        let masked = common::again(the_mask_is_taken_from_the_mode, folder.path());
        run(&mut common::through_shell(&format!("umask {mask}"), masked));
        assert_eq!(mode(&folder.path().join("desk.book")), expected);
    }
}

#[test]
fn what_exists_is_not_replaced() {
    let (folder, book) = folder_with("desk.book", b"old");
    let dangling = folder.path().join("link");
    symlink("nothing", &dangling).unwrap();
    let linked = folder.path().join("linked");
    symlink("desk.book", &linked).unwrap();
    let refused = |path: &Path| {
        let before = state(path);
        let text = reason(create(path, b"new", &AT_ONCE));
        assert_eq!(state(path), before);
        text.replace(&path.display().to_string(), "it")
    };
    assert_eq!(refused(&book), "it: exists already");
    assert_eq!(refused(&linked), "it: exists already");
    assert_eq!(refused(folder.path()), "it: exists already");
    let expected = "it: is a link to a file that is not there";
    assert_eq!(refused(&dangling), expected);
    assert_eq!(names(folder.path()), ["desk.book", "link", "linked"]);
}

#[test]
fn a_path_that_is_no_files_is_refused() {
    let folder = open_folder();
    let refused = |name: &str| {
        let text = reason(create(&folder.path().join(name), b"new", &AT_ONCE));
        text.replace(&format!("{}/", folder.path().display()), "")
    };
    assert_eq!(refused("new/"), "new/: is a directory");
    assert_eq!(refused("new/."), "new/.: is a directory");
    assert_eq!(refused("new/.."), "new/..: is a directory");
    assert_eq!(refused("no/book"), "no/book: no such file or directory");
    assert_eq!(
        reason(create(Path::new("-"), b"new", &AT_ONCE)),
        "-: stands for no file here; ./- is the file of that name"
    );
    assert!(names(folder.path()).is_empty());
}

#[test]
fn without_hard_links_nothing_is_made() {
    if let Some(book) = given() {
        assert_eq!(
            reason(create(&book, b"new", &AT_ONCE)),
            format!(
                "{}: can't be made here: without hard links, which this file system \
                 does not have, it could replace another file",
                book.display()
            )
        );
        return;
    }
    let folder = open_folder();
    let book = folder.path().join("desk.book");
    let faults = Faults::build();
    const NOT_PERMITTED: &str = "1";
    const NOT_SUPPORTED: &str = "95";
    for error in [NOT_PERMITTED, NOT_SUPPORTED] {
        run(&mut faults.again(without_hard_links_nothing_is_made, &book, "link", error));
        assert!(names(folder.path()).is_empty());
    }
}

#[test]
fn killed_midway_it_is_whole_or_not_there() {
    if let Some(book) = given() {
        let created = create(&book, b"new", &AT_ONCE);
        panic!("it was not killed: {created:?}");
    }
    let faults = Faults::build();
    let killed_at = |call: &str| {
        let folder = open_folder();
        let book = folder.path().join("desk.book");
        faults.kill(killed_midway_it_is_whole_or_not_there, &book, call);
        assert_eq!(common::leftovers(folder.path()).len(), 1, "at {call}");
        (folder, book)
    };
    for call in ["fsync file", "link"] {
        let (_folder, book) = killed_at(call);
        assert!(!book.exists(), "at {call}");
        assert!(create(&book, b"new", &AT_ONCE).is_ok());
    }
    let (folder, book) = killed_at("unlink");
    assert_eq!(fs::read(&book).unwrap(), b"new");
    assert_eq!(fs::metadata(&book).unwrap().nlink(), 2);
    // its temporary name is gone before its links are counted
    assert!(edit_to(&book, b"newer").is_ok());
    assert_eq!(names(folder.path()), ["desk.book"]);
}
