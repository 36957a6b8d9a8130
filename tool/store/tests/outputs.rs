//! Outputs: over no file that was not meant, and through what is no file.

mod common;

use common::{
    folder_with, is_root, make_fifo, mode, names, open_folder, reason, set_mode, state, AT_ONCE,
    MOST,
};
use seddolki_store::{read_at_most, write_output, Failure, Input};
use std::fs;
use std::io::Read;
use std::os::fd::AsRawFd;
use std::os::unix::fs::{symlink, FileTypeExt, MetadataExt};
use std::os::unix::net::UnixListener;
use std::path::Path;
use std::thread;

fn output(path: &Path, force: bool, inputs: &[&Input]) -> Result<(), Failure> {
    write_output(path, b"new", force, inputs, &AT_ONCE)
}

/// Why an output is refused; whatever was there is as it was.
fn refused(path: &Path, force: bool, inputs: &[&Input]) -> String {
    let folder = path.parent().unwrap();
    let before = (state(path), names(folder));
    let text = reason(output(path, force, inputs));
    assert_eq!((state(path), names(folder)), before);
    text.replace(&format!("{}/", folder.display()), "")
}

#[test]
fn an_output_goes_to_a_new_file() {
    let folder = open_folder();
    let path = folder.path().join("out.csv");
    output(&path, false, &[]).unwrap();
    assert_eq!(fs::read(&path).unwrap(), b"new");
    let usual = folder.path().join("usual");
    fs::write(&usual, b"").unwrap();
    assert_eq!(mode(&path), mode(&usual));
    assert_eq!(names(folder.path()), ["out.csv", "usual"]);
}

#[test]
fn over_an_existing_file_only_by_force() {
    let (folder, path) = folder_with("out.csv", b"old");
    set_mode(&path, 0o640);
    assert_eq!(
        refused(&path, false, &[]),
        "out.csv: exists already; --force writes over it"
    );
    let before = fs::metadata(&path).unwrap();
    output(&path, true, &[]).unwrap();
    let after = fs::metadata(&path).unwrap();
    assert_eq!(fs::read(&path).unwrap(), b"new");
    assert_eq!(mode(&path), 0o640);
    // replaced, not written through
    assert_ne!(after.ino(), before.ino());
    assert_eq!(names(folder.path()), ["out.csv"]);
}

#[test]
fn force_replaces_as_an_edit_does() {
    let (folder, path) = folder_with("out.csv", b"old");
    let link = folder.path().join("link.csv");
    symlink("out.csv", &link).unwrap();
    assert!(output(&link, true, &[]).is_ok());
    assert!(fs::symlink_metadata(&link).unwrap().is_symlink());
    assert_eq!(fs::read(&path).unwrap(), b"new");
    set_mode(&path, 0o444);
    let read_only = if is_root() {
        "out.csv: is read-only"
    } else {
        "out.csv: can't be opened for writing: permission denied"
    };
    assert_eq!(refused(&path, true, &[]), read_only);
    set_mode(&path, 0o644);
    fs::hard_link(&path, folder.path().join("second.csv")).unwrap();
    assert_eq!(
        refused(&path, true, &[]),
        "out.csv: has 2 hard links, and only one of them would be changed"
    );
}

#[test]
fn never_over_an_input_by_any_name() {
    let (folder, book) = folder_with("desk.book", b"old");
    let at = |name: &str| folder.path().join(name);
    symlink("desk.book", at("link")).unwrap();
    symlink("link", at("link to link")).unwrap();
    fs::hard_link(&book, at("second name")).unwrap();
    let other = read_at_most(Path::new("/dev/null"), MOST).unwrap();
    let names = ["desk.book", "link", "link to link", "second name"];
    for (read, name) in names.iter().flat_map(|a| names.map(|b| (a, b))) {
        let input = read_at_most(&at(read), MOST).unwrap();
        let expected = format!("{name}: is the same file as the input {read}");
        for force in [false, true] {
            assert_eq!(refused(&at(name), force, &[&other, &input]), expected);
        }
    }
    assert_eq!(fs::read(&book).unwrap(), b"old");
}

#[test]
fn an_input_is_the_file_that_was_read() {
    let (folder, book) = folder_with("desk.book", b"old");
    let input = read_at_most(&book, MOST).unwrap();
    let moved = folder.path().join("moved.book");
    fs::rename(&book, &moved).unwrap();
    let expected = "moved.book: is the same file as the input desk.book";
    assert_eq!(refused(&moved, true, &[&input]), expected);
    fs::write(&book, b"another file").unwrap();
    assert!(output(&book, true, &[&input]).is_ok());
    assert_eq!(fs::read(&book).unwrap(), b"new");
    assert_eq!(fs::read(&moved).unwrap(), b"old");
}

#[test]
fn a_fifo_is_written_through() {
    let folder = open_folder();
    let fifo = folder.path().join("fifo");
    make_fifo(&fifo);
    let link = folder.path().join("link");
    symlink("fifo", &link).unwrap();
    for path in [&fifo, &link] {
        let before = state(&fifo).0;
        let reader = thread::spawn({
            let fifo = fifo.clone();
            move || fs::read(fifo).unwrap()
        });
        output(path, false, &[]).unwrap();
        assert_eq!(reader.join().unwrap(), b"new");
        assert!(fs::metadata(&fifo).unwrap().file_type().is_fifo());
        assert_eq!(state(&fifo).0, before);
    }
    assert_eq!(names(folder.path()), ["fifo", "link"]);
}

#[test]
fn a_pipe_is_written_through() {
    let (mut reader, writer) = std::io::pipe().unwrap();
    let path = format!("/proc/self/fd/{}", writer.as_raw_fd());
    assert!(output(Path::new(&path), false, &[]).is_ok());
    drop(writer);
    let mut bytes = Vec::new();
    reader.read_to_end(&mut bytes).unwrap();
    assert_eq!(bytes, b"new");
}

#[test]
fn a_device_is_written_through() {
    let null = Path::new("/dev/null");
    let input = read_at_most(null, MOST).unwrap();
    for force in [false, true] {
        // it keeps nothing that an output could destroy
        assert!(output(null, force, &[&input]).is_ok());
        assert_eq!(
            reason(output(Path::new("/dev/full"), force, &[])),
            "/dev/full: no space left on device"
        );
    }
    for device in ["/dev/null", "/dev/full"] {
        assert!(fs::metadata(device).unwrap().file_type().is_char_device());
    }
}

#[test]
fn what_can_hold_no_output_is_refused() {
    let (folder, _path) = folder_with("out.csv", b"old");
    let at = |name: &str| folder.path().join(name);
    fs::create_dir(at("folder")).unwrap();
    let _listener = UnixListener::bind(at("socket")).unwrap();
    symlink("nothing", at("dangling")).unwrap();
    symlink("loop", at("loop")).unwrap();
    for force in [false, true] {
        let refused = |name: &str| refused(&at(name), force, &[]);
        assert_eq!(refused("folder"), "folder: is a folder, not a file");
        assert_eq!(refused("socket"), "socket: is a socket, not a file");
        assert_eq!(
            refused("dangling"),
            "dangling: is a link to a file that is not there"
        );
        assert!(refused("loop").starts_with("loop: too many levels"));
        let below = reason(output(&at("out.csv/below"), force, &[]));
        assert!(below.ends_with("below: not a directory"), "{below}");
        let nowhere = reason(output(&at("no/out.csv"), force, &[]));
        assert!(nowhere.ends_with("no such file or directory"), "{nowhere}");
    }
}
