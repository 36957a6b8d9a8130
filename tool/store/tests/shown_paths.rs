//! Paths in messages: safe on a terminal.

use seddolki_store::{shown, Failure};
use std::ffi::OsStr;
use std::os::unix::ffi::OsStrExt;
use std::path::Path;

fn shown_bytes(bytes: &[u8]) -> String {
    shown(Path::new(OsStr::from_bytes(bytes)))
}

#[test]
fn text_is_shown_as_it_is() {
    for text in [
        "desk.book",
        "a b",
        "günlük işlem.csv",
        "日本",
        "back\\slash",
        "'",
        "-",
    ] {
        assert_eq!(shown(Path::new(text)), text);
    }
}

#[test]
fn what_moves_the_cursor_or_turns_text_is_escaped() {
    assert_eq!(shown_bytes(b"a\x1b[2Jb"), "a\\x1b[2Jb");
    assert_eq!(shown_bytes(b"\n\r\t\x07\x7f"), "\\n\\r\\t\\x07\\x7f");
    assert_eq!(shown(Path::new("\u{9b}31m")), "\\xc2\\x9b31m");
    assert_eq!(shown(Path::new("a\u{202e}b")), "a\\xe2\\x80\\xaeb");
    let escaped = (0..=u8::MAX).filter(|&byte| shown_bytes(&[byte]).len() > 1);
    let controls = (0..=u8::MAX).filter(|&byte| !(b' '..=b'~').contains(&byte));
    // no file's name has the zero, but nothing breaks by it
    assert!(escaped.eq(controls));
}

#[test]
fn other_bytes_are_shown_by_their_values() {
    assert_eq!(shown_bytes(b"caf\xe9.book"), "caf\\xe9.book");
    assert_eq!(shown_bytes(b"\xff\xfe\xc3\xa9\xc3"), "\\xff\\xfeé\\xc3");
}

#[test]
fn a_failure_shows_its_path_so() {
    let failure = Failure::new(Path::new("a\nb"), "is full");
    assert_eq!(failure.to_string(), "a\\nb: is full");
}
