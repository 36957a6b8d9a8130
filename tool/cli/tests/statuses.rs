//! The exit status says what became of the book.

mod tool;

use tool::{outright, Desk, DONE, FAILED, LENGTHEN, MISUSED, REFUSED};

/// The values of a trade as a shell takes them.
fn shell_words(values: &[String]) -> String {
    let quoted = values.iter().map(|value| format!("'{value}'"));
    quoted.collect::<Vec<_>>().join(" ")
}

#[test]
fn an_edit_that_is_done_ends_so_though_it_cannot_be_told() {
    for streams in [">/dev/full", ">/dev/full 2>/dev/full", ">&- 2>&-", "| true"] {
        let desk = Desk::with("buyer.book");
        let trade = shell_words(&outright(5));
        let run = desk.shell(&format!(
            "set -o pipefail; \"$0\" append --day $DAY buyer.book {trade} {streams}"
        ));
        assert_eq!(run.status, DONE, "{streams}: {}", run.err);
        assert_eq!(desk.trades("buyer.book"), 2);
        let run = desk.shell(&format!("\"$0\" strike --day $DAY buyer.book 1 {streams}"));
        assert_eq!(run.status, DONE, "{streams}: {}", run.err);
        assert_eq!(desk.trades("buyer.book"), 1);
    }
}

#[test]
fn a_curve_that_is_lengthened_is_so_though_its_table_cannot_be_printed() {
    let lengthen = LENGTHEN.join(" ") + " --day $DAY";
    for form in ["", "--json", "--csv"] {
        let desk = Desk::with("desk.book");
        let run = desk.shell(&format!("\"$0\" {lengthen} {form} --dry-run >/dev/full"));
        assert_eq!(run.status, FAILED, "{form}: {}", run.err);
        let run = desk.shell(&format!("\"$0\" {lengthen} {form} >/dev/full"));
        assert_eq!((run.status, run.err.as_str()), (DONE, ""), "{form}");
        // a second time the bond ends with the curve
        assert_eq!(desk.run(&LENGTHEN).status, REFUSED);
    }
}

#[test]
fn what_was_asked_for_and_cannot_be_printed_is_a_failure() {
    let desk = Desk::with("desk.book");
    for command in [
        "margin --day $DAY",
        "statement --day $DAY",
        "show",
        "flows",
        "export",
    ] {
        let run = desk.shell(&format!("\"$0\" {command} desk.book > /dev/full"));
        assert_eq!(run.status, FAILED, "{command}");
        assert!(
            run.err.starts_with("seddolki: standard output: "),
            "{}",
            run.err
        );
    }
}

#[test]
fn a_refusal_that_cannot_be_told_is_still_one_and_nothing_panics() {
    let desk = Desk::with("buyer.book");
    let before = desk.read("buyer.book");
    for streams in ["2>/dev/full", "2>&-", ">&- 2>&-"] {
        for (command, status) in [
            ("append --day $DAY buyer.book kind=swap", REFUSED),
            ("strike --day $DAY buyer.book 7", REFUSED),
            ("strike buyer.book first", MISUSED),
            ("check", MISUSED),
            ("check no.book", FAILED),
        ] {
            let run = desk.shell(&format!("\"$0\" {command} {streams}"));
            assert_eq!(run.status, status, "{command} {streams}");
        }
    }
    assert_eq!(desk.read("buyer.book"), before);
}

#[test]
fn a_reader_that_stops_early_is_no_fault() {
    let desk = Desk::with("desk.book");
    let run = desk.shell(
        "set -o pipefail; for i in 1 2 3 4 5 6 7 8 9; do \"$0\" show desk.book; done | head -n 1",
    );
    let first = "account 1042, valuation day 16 November 2026\n";
    assert_eq!((run.out.as_str(), run.err.as_str()), (first, ""));
    assert_eq!(run.status, DONE);
    let run = desk.shell("set -o pipefail; \"$0\" export desk.book | true");
    assert_eq!((run.status, run.err.as_str()), (DONE, ""));
}

#[test]
fn each_way_to_end_has_its_status() {
    let desk = Desk::with("buyer.book");
    assert_eq!(desk.run(&["check", "buyer.book"]).status, DONE);
    assert_eq!(desk.run(&["strike", "buyer.book", "1"]).status, REFUSED);
    assert_eq!(
        desk.run(&["append", "buyer.book", "knd=outright"]).status,
        REFUSED
    );
    assert_eq!(desk.run(&["sell", "buyer.book"]).status, MISUSED);
    assert_eq!(desk.run::<&str>(&[]).status, MISUSED);
    assert_eq!(desk.run(&["append", "buyer.book", "kind"]).status, MISUSED);
    assert_eq!(desk.append("-", &outright(5)).status, MISUSED);
    assert_eq!(desk.run(&["check", "no.book"]).status, FAILED);
    assert_eq!(desk.run(&["check", "."]).status, FAILED);
    assert_eq!(desk.files(), ["buyer.book"]);
}
