//! Files of curves: nothing defaults in silence.

mod tool;

use tool::{example, Desk, REFUSED};

const NODES: &str = "node 1 10 0 0 0\nnode 9 10 0 0 0\n";
const WHOLE: &str = "account 5\ncurve TRY\nsteps 1 0 0\nranges 1 0 0\n";

/// The reasons for which a file is refused, and no book made.
fn refused(text: impl AsRef<[u8]>) -> String {
    let desk = Desk::new();
    desk.write("curves.txt", text);
    let run = desk.run(&["new", "new.book", "curves.txt"]);
    assert_eq!((run.status, run.out.as_str()), (REFUSED, ""), "{}", run.err);
    assert_eq!(desk.files(), ["curves.txt"]);
    run.err
}

#[test]
fn what_is_missing_is_asked_for() {
    let whole = format!("{WHOLE}{NODES}");
    for (line, words) in [
        ("account 5\n", "account"),
        ("steps 1 0 0\n", "steps"),
        ("ranges 1 0 0\n", "ranges"),
        (NODES, "node"),
        ("node 9 10 0 0 0\n", "node"),
    ] {
        let reason = refused(whole.replace(line, ""));
        assert!(reason.contains(words), "{reason}");
        assert!(reason.starts_with("seddolki: curves.txt: "), "{reason}");
    }
    refused("");
}

#[test]
fn a_line_twice_is_refused() {
    let whole = format!("{WHOLE}{NODES}");
    for line in ["account 5\n", "steps 1 0 0\n", "ranges 1 0 0\n"] {
        let reason = refused(format!("{whole}{line}"));
        assert!(
            reason.contains("line 7") && reason.contains("twice"),
            "{reason}"
        );
    }
}

#[test]
fn a_byte_order_mark_and_ends_of_lines_of_windows_are_taken() {
    let desk = Desk::new();
    let text = format!("\u{feff}{WHOLE}{NODES}").replace('\n', "\r\n");
    desk.write("curves.txt", text);
    assert_eq!(
        desk.done(&["new", "new.book", "curves.txt"]),
        "new.book: account 5, valuation day 16 November 2026, 1 curve, no trades\n"
    );
}

#[test]
fn bad_lines_are_named() {
    for (text, words) in [
        ("curve GBP\n".to_owned(), "line 1"),
        ("node 1 1 1 1 1\n".to_owned(), "line 1"),
        (format!("{WHOLE}{NODES}step 1 1 1\n"), "line 7"),
        (WHOLE.replace("1 0 0", "1 0"), "line 3"),
        (WHOLE.replace("steps 1 0 0", "steps 1 0 256"), "line 3"),
        (format!("{WHOLE}node 1 x 0 0 0\n"), "line 5"),
        (
            format!("{WHOLE}{}", "node 1 1 1 1 1\n".repeat(25)),
            "line 29",
        ),
    ] {
        let reason = refused(&text);
        assert!(reason.contains(words), "{text}: {reason}");
    }
}

#[test]
fn limits_are_the_engine_s_and_told_with_their_line() {
    let whole = format!("{WHOLE}{NODES}");
    for (text, words) in [
        (
            whole.replace("steps 1", "steps 4"),
            [
                "line 3, field steps: 4 is there, 0 to 3 is due",
                "refused by ground 5",
            ],
        ),
        (
            whole.replace("node 9", "node 1"),
            ["line 6, field day: 1 is there", "refused by ground 6"],
        ),
        (
            whole.replace("node 9 10", "node 9 101"),
            ["line 6, field rate: 101.0000% is there", "100.0000%"],
        ),
    ] {
        let reason = refused(&text);
        for word in words {
            assert!(reason.contains(word), "{reason}\n{word}");
        }
    }
    let curve = whole.replace("account 5\n", "");
    let reason = refused(format!("account 5\n{}", curve.repeat(9)));
    assert!(
        reason.contains("refused by ground 4 in block 0"),
        "{reason}"
    );
}

#[test]
fn curves_are_replaced_and_trades_kept() {
    let desk = Desk::with("desk.book");
    let trades = desk.done(&["export", "desk.book"]);
    desk.shell("\"$0\" export --curves desk.book | sed 's/13.1500/14.1500/' > curves.txt");
    let text = desk.done(&["curves", "desk.book", "curves.txt"]);
    assert_eq!(text, "desk.book: 3 curves replaced by 3, 11 trades kept\n");
    assert_eq!(desk.done(&["export", "desk.book"]), trades);
    assert!(desk.done(&["show", "desk.book"]).contains("14.1500"));
    let before = desk.read("desk.book");
    // of another account, with a curve fewer than the trades use, of another currency
    for (script, words) in [
        (
            "s/account 1042/account 7/",
            "account 7, and desk.book is of account 1042",
        ),
        ("/curve USD/,$d", "refused by ground 8"),
        ("s/USD/EUR/;0,/TRY/s//USD/", "refused by ground 11"),
    ] {
        desk.shell(&format!(
            "\"$0\" export --curves desk.book | sed '{script}' > wrong.txt"
        ));
        let reason = desk.refused(&["curves", "desk.book", "wrong.txt"]);
        assert!(reason.contains(words), "{reason}");
        assert_eq!(desk.read("desk.book"), before);
    }
    desk.done(&["curves", "desk.book", &example("desk-curves.txt")]);
    assert_eq!(
        desk.read("desk.book"),
        std::fs::read(example("desk.book")).unwrap()
    );
}
