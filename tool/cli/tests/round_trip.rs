//! Books leave as text and come back as they were.

mod tool;

use seddolki::{Book, Record};
use seddolki_books::{assemble, draw_book, Draw};
use std::collections::BTreeSet;
use tool::Desk;

#[test]
fn exported_books_are_imported_as_they_were() {
    for seed in 0..20 {
        let mut book = draw_book(&mut Draw::new(seed), 100);
        book.trades.truncate(200);
        let desk = Desk::new();
        desk.write("a.book", assemble(&book));
        desk.done(&["export", "--curves", "a.book", "curves.txt"]);
        let on = ["--day", &book.valuation_day.to_string()];
        for (form, file) in [(&[][..], "comma.csv"), (&["--semicolon"], "semicolon.csv")] {
            desk.done(&[&["export", "a.book", file], form].concat());
            let name = format!("{file}.book");
            desk.done(&[&["new", &name, "curves.txt"], &on[..]].concat());
            let run = desk.run(&[&["import", "--again", &name, file], &on[..]].concat());
            assert_eq!(run.status, tool::DONE, "seed {seed}: {}", run.err);
            assert_eq!(desk.read(&name), desk.read("a.book"), "seed {seed}");
        }
    }
}

#[test]
fn drawn_books_are_shown_and_drawn() {
    for seed in 0..12 {
        let mut book = draw_book(&mut Draw::new(seed), 100);
        book.trades.truncate(60);
        let desk = Desk::new();
        desk.write("a.book", assemble(&book));
        let on = ["--day", &book.valuation_day.to_string()];
        let of_one_day = ["margin", "losses"].map(|command| [command, on[0], on[1], "a.book"]);
        for command in of_one_day {
            assert!(!desk.done(&command).is_empty(), "seed {seed}: {command:?}");
        }
        for command in ["show", "flows"] {
            let shown = desk.done(&[command, "a.book"]);
            assert!(!shown.is_empty(), "seed {seed}: {command}");
        }
        desk.done(&["plot", "a.book", "1", "rates.svg"]);
        desk.done(&["plot", "--losses", "a.book", "1", "losses.svg"]);
        for name in ["rates.svg", "losses.svg"] {
            let svg = String::from_utf8(desk.read(name)).unwrap();
            assert!(svg.starts_with("<svg ") && !svg.contains("NaN") && !svg.contains("inf"));
        }
    }
}

#[test]
fn every_column_of_every_kind_is_amended() {
    let mut kinds = BTreeSet::new();
    for seed in 0..80 {
        let mut draw = Draw::new(seed);
        let mut book = draw_book(&mut draw, 100);
        book.trades.truncate(12);
        if book.trades.len() < 2 {
            continue;
        }
        let (from, to) = (book.trades[0], book.trades[1]);
        let desk = Desk::new();
        desk.write("a.book", assemble(&book));
        // all columns of the second trade are given to the first
        let line = desk.done(&["export", "a.book"]);
        let mut lines = line.lines();
        let names: Vec<&str> = lines.next().unwrap().split(',').collect();
        let values: Vec<&str> = lines.nth(1).unwrap().split(',').collect();
        let pairs = names
            .iter()
            .zip(values)
            .map(|(name, value)| format!("{name}={value}"));
        let mut arguments = vec![
            "amend".to_owned(),
            "--day".into(),
            book.valuation_day.to_string(),
            "--again".into(),
            "a.book".into(),
            "0".into(),
        ];
        arguments.extend(pairs);
        let run = desk.run(&arguments);
        assert_eq!(
            run.status,
            tool::DONE,
            "seed {seed}: {from:?} {to:?} {}",
            run.err
        );
        let amended = Book::from_bytes(desk.read("a.book"));
        let records: Vec<Record> = amended.records().unwrap().collect();
        assert_eq!(records[0], to);
        assert_eq!(records[1..], book.trades[1..]);
        kinds.insert((from.kind, to.kind));
    }
    assert_eq!(kinds.len(), 9, "from every kind to every kind: {kinds:?}");
}
