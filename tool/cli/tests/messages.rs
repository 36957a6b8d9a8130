//! What the tool says can be read, whatever it was given.

mod tool;

use std::ffi::{OsStr, OsString};
use std::os::unix::ffi::{OsStrExt, OsStringExt};
use tool::{example, Desk, DONE, FAILED, MISUSED, REFUSED};

#[test]
fn control_characters_are_escaped() {
    let desk = Desk::with("buyer.book");
    let clear = "\u{1b}[2J";
    for (arguments, status) in [
        (vec!["check", "no\u{1b}[2J.book"], FAILED),
        (vec!["append", "buyer.book", "kind=\u{1b}[2J"], REFUSED),
        (vec!["append", "buyer.book", "\u{1b}[2J=1"], REFUSED),
        (vec!["\u{1b}[2J"], MISUSED),
    ] {
        let run = desk.run(&arguments);
        assert!(!run.err.contains('\u{1b}'), "{:?}", run.err);
        assert_eq!(run.status, status, "{arguments:?}");
        assert!(run.err.contains("[2J"), "{:?}", run.err);
    }
    std::fs::copy(desk.path("buyer.book"), desk.path(format!("{clear}.book"))).unwrap();
    for command in ["check", "margin"] {
        let name = format!("{clear}.book");
        let text = desk.done(&[command, &name, "buyer.book"]);
        assert!(
            !text.contains('\u{1b}') && text.contains("[2J.book"),
            "{text:?}"
        );
    }
    desk.write("trades.csv", "kind,side\n\u{1b}[31m,\u{7}\n");
    let run = desk.run(&["import", "buyer.book", "trades.csv"]);
    assert!(
        run.status == REFUSED && !run.err.contains(['\u{1b}', '\u{7}']),
        "{:?}",
        run.err
    );
}

#[test]
fn names_need_not_be_utf_8() {
    let desk = Desk::new();
    let name = OsString::from_vec(b"b\xfc\xe7er.book".to_vec());
    desk.copy("buyer.book", &name);
    let run = desk.run(&[OsStr::new("check"), &name]);
    assert_eq!(run.status, DONE, "{}", run.err);
    assert!(
        run.out.starts_with("b\\xfc\\xe7er.book: accepted"),
        "{}",
        run.out
    );
    let run = desk.run(&[
        OsStr::new("amend"),
        &name,
        OsStr::new("0"),
        OsStr::new("nominal=5"),
    ]);
    assert_eq!(run.status, DONE, "{}", run.err);
    let value = OsStr::from_bytes(b"kind=\xff");
    let run = desk.run(&[OsStr::new("append"), &name, value]);
    assert_eq!(run.status, MISUSED, "{}", run.err);
}

#[test]
fn names_may_be_as_long_as_the_system_allows() {
    let desk = Desk::new();
    for length in [250, 255] {
        let name = format!("{}.book", "n".repeat(length - 5));
        desk.done(&["new", &name, &example("curve.txt")]);
        desk.done(&["import", &name, &example("buyer.csv")]);
        assert_eq!(desk.trades(&name), 1);
    }
    let name = "n".repeat(256);
    desk.ended(FAILED, &["new", &name, &example("curve.txt")]);
    assert_eq!(desk.files().len(), 2);
}

#[test]
fn two_dashes_end_the_options() {
    let desk = Desk::with("buyer.book");
    std::fs::copy(desk.path("buyer.book"), desk.path("--json")).unwrap();
    assert!(desk
        .done(&["check", "--", "--json"])
        .starts_with("--json: accepted"));
    desk.done(&["amend", "--again", "--", "--json", "0", "nominal=5"]);
    let json = desk.done(&["margin", "--json", "--", "--json"]);
    assert!(json.starts_with('{'), "{json}");
    assert_eq!(desk.run(&["strike", "--", "-1", "x"]).status, MISUSED);
}

#[test]
fn a_single_dash_is_a_standard_stream() {
    let desk = Desk::with("desk.book");
    let text = desk.done(&["margin", "desk.book"]);
    let run = desk.shell("\"$0\" margin --day $DAY - < desk.book");
    assert_eq!((run.status, run.out), (DONE, text));
    let run = desk.shell(
        "\"$0\" export desk.book | { \
         \"$0\" new --day $DAY new.book <(\"$0\" export --curves desk.book) && \
         \"$0\" import --day $DAY new.book -; }",
    );
    assert_eq!(run.status, DONE, "{}", run.err);
    assert_eq!(desk.read("new.book"), desk.read("desk.book"));
    desk.ended(MISUSED, &["diff", "-", "-"]);
    desk.ended(MISUSED, &["import", "-", "-"]);
}
