//! A book comes to another day with new curves.

mod tool;

use seddolki_format::block::valuation_day;
use tool::{commands, example, for_day, Desk, DAY, REFUSED};

/// The curves of desk.book under another first rate.
fn new_curves(desk: &Desk) {
    let curves = std::fs::read_to_string(example("desk-curves.txt")).unwrap();
    let other = curves.replacen("13.15", "14.15", 1);
    assert_ne!(other, curves);
    desk.write("curves.txt", other);
}

#[test]
fn a_book_without_trades_goes_to_the_day_and_says_so() {
    let desk = Desk::with("empty.book");
    let file = example("curve.txt");
    let book = desk.read("empty.book");
    let text = desk.done(&["curves", "--day", "2026-11-17", "empty.book", &file]);
    assert_eq!(
        text,
        "empty.book: 1 curve replaced by 1, 0 trades kept; the book was for 16 November 2026, and \
         is now for 17 November 2026\n"
    );
    assert_eq!(desk.read("empty.book"), for_day(&book, "2026-11-17"));
    let text = desk.done(&["curves", "--day", "2026-11-17", "empty.book", &file]);
    assert_eq!(text, "empty.book: 1 curve replaced by 1, 0 trades kept\n");
}

#[test]
fn trades_are_not_moved_in_silence() {
    for (book, curves, trades) in [
        ("desk.book", "desk-curves.txt", "11 trades"),
        ("buyer.book", "curve.txt", "1 trade"),
    ] {
        let desk = Desk::with(book);
        let before = desk.read(book);
        for (day, said) in [("2026-11-15", "15"), ("2026-11-17", "17")] {
            let reason = desk.refused(&["curves", "--day", day, book, &example(curves)]);
            assert_eq!(
                reason,
                format!(
                    "{book}: the days of its {trades} are counted from 16 November 2026, and the \
                     day said is {said} November 2026; say --keep-days if they are to stay as \
                     they are and count from the new day, or --day 2026-11-16 if the book's day \
                     is to stay"
                )
            );
            assert_eq!(desk.read(book), before);
        }
        assert_eq!(desk.files(), [book]);
    }
}

#[test]
fn trades_keep_their_days_where_that_is_said() {
    let desk = Desk::with("desk.book");
    let trades = desk.done(&["export", "desk.book"]);
    new_curves(&desk);
    let curves = ["curves", "--keep-days", "desk.book", "curves.txt"];
    let text = desk.done(&[&curves[..], &["--day", "2026-11-17"]].concat());
    assert_eq!(
        text,
        "desk.book: 3 curves replaced by 3, 11 trades kept; the days of trades stay as they are, \
         counted from 17 November 2026 now and not from 16 November 2026\n"
    );
    assert_eq!(desk.done(&["export", "desk.book"]), trades);
    assert_eq!(
        valuation_day(&desk.read("desk.book")).to_string(),
        "2026-11-17"
    );
    assert_eq!(
        desk.run(&["margin", "--day", DAY, "desk.book"]).status,
        REFUSED
    );
    desk.done(&["margin", "--day", "2026-11-17", "desk.book"]);
}

#[test]
fn on_the_same_day_there_is_nothing_to_keep() {
    let desk = Desk::with("desk.book");
    new_curves(&desk);
    for more in [&[][..], &["--keep-days"]] {
        let text = desk.done(&[&["curves", "desk.book", "curves.txt"], more].concat());
        assert_eq!(text, "desk.book: 3 curves replaced by 3, 11 trades kept\n");
        assert_eq!(valuation_day(&desk.read("desk.book")).to_string(), DAY);
    }
}

#[test]
fn a_book_that_was_made_without_a_day_gets_one_as_the_readme_says() {
    let desk = Desk::with("desk.book");
    let book = desk.read("desk.book");
    desk.write("desk.book", for_day(&book, "2000-01-01"));
    let margin = ["margin", "--day", "2026-11-15", "desk.book"];
    assert_eq!(desk.run(&margin).status, REFUSED);
    let readme = include_str!("../../README.md");
    let (_, section) = readme.split_once("## The valuation day").unwrap();
    let (section, _) = section.split_once("\n## ").unwrap();
    let steps = commands(section);
    assert_eq!(steps.len(), 2, "{steps:?}");
    for step in steps {
        desk.done(&step.split_whitespace().collect::<Vec<_>>());
    }
    assert_eq!(desk.read("desk.book"), for_day(&book, "2026-11-15"));
    desk.done(&margin);
}

#[test]
fn the_account_is_looked_at_before_the_day() {
    let desk = Desk::with("desk.book");
    let other = ["curves", "--day", "2026-11-17", "desk.book"];
    let reason = desk.refused(&[&other[..], &[&example("curve.txt")]].concat());
    assert!(reason.ends_with("desk.book is of account 1042"), "{reason}");
}
