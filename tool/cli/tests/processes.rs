//! Several runs at once, and runs that are killed.

mod tool;

use seddolki::Book;
use std::io::{BufRead, BufReader};
use std::process::Stdio;
use std::time::{Duration, Instant};
use tool::{example, outright, Desk, DONE, FAILED};

/// The names of what a killed run may leave.
fn temporary(desk: &Desk) -> Vec<String> {
    let mut names = desk.files();
    names.retain(|name| name.starts_with('.'));
    names
}

#[test]
fn edits_at_the_same_time_are_all_kept() {
    let desk = Desk::with("buyer.book");
    let adding: Vec<_> = (1..=8)
        .map(|nominal| {
            let arguments = ["append", "--wait", "600", "buyer.book"].map(str::to_owned);
            let arguments = [arguments.to_vec(), outright(nominal)].concat();
            let mut command = desk.tool(&arguments);
            command.stdout(Stdio::null()).stderr(Stdio::null());
            command.spawn().unwrap()
        })
        .collect();
    for mut child in adding {
        assert!(child.wait().unwrap().success());
    }
    assert_eq!(desk.trades("buyer.book"), 9);
    assert_eq!(desk.files(), ["buyer.book"]);
}

#[test]
fn a_lock_is_waited_for_and_told_and_then_given_up() {
    let desk = Desk::with("buyer.book");
    let before = desk.read("buyer.book");
    let held = desk.lock();
    let start = Instant::now();
    let run = desk.run(&["strike", "buyer.book", "0", "--wait", "1"]);
    assert!(start.elapsed() >= Duration::from_secs(1));
    assert_eq!((run.status, run.out.as_str()), (FAILED, ""));
    let lines: Vec<&str> = run.err.lines().collect();
    assert_eq!(lines.len(), 2, "{}", run.err);
    assert!(
        lines[0].contains("buyer.book: waiting up to 1 s for "),
        "{}",
        lines[0]
    );
    assert!(lines[1].contains("buyer.book: "), "{}", lines[1]);
    assert_eq!(desk.read("buyer.book"), before);
    let run = desk.run(&["strike", "buyer.book", "0", "--wait", "0"]);
    assert_eq!(run.status, FAILED);
    // it waits ten seconds where nothing else is said
    let help = desk.done(&["strike", "--help"]);
    assert!(help.contains("[default: 10]"), "{help}");
    drop(held);
    desk.done(&["strike", "buyer.book", "0"]);
}

#[test]
fn a_lock_that_is_let_go_in_time_is_taken() {
    let desk = Desk::with("buyer.book");
    let held = desk.lock();
    let mut command = desk.tool(&["strike", "buyer.book", "0"]);
    command.stdout(Stdio::null()).stderr(Stdio::piped());
    let mut child = command.spawn().unwrap();
    let mut told = String::new();
    let mut lines = BufReader::new(child.stderr.take().unwrap());
    lines.read_line(&mut told).unwrap();
    assert!(told.contains("waiting up to 10 s"), "{told}");
    assert_eq!(desk.trades("buyer.book"), 1);
    drop(held);
    assert_eq!(child.wait().unwrap().code(), Some(DONE));
    assert_eq!(desk.trades("buyer.book"), 0);
}

/// Starts an edit and kills it after some microseconds.
fn kill_midway(desk: &Desk, arguments: &[String], microseconds: u64) {
    let mut command = desk.tool(arguments);
    command.stdout(Stdio::null()).stderr(Stdio::null());
    let mut child = command.spawn().unwrap();
    let start = Instant::now();
    while start.elapsed() < Duration::from_micros(microseconds) {
        std::hint::spin_loop();
    }
    child.kill().unwrap();
    child.wait().unwrap();
}

/// Moments from the start of a run to a little behind its end, one by one.
fn moments(run: impl FnOnce()) -> impl Iterator<Item = u64> {
    let start = Instant::now();
    run();
    let whole = start.elapsed().as_micros() as u64;
    (0..60).cycle().map(move |part| whole * part / 50)
}

#[test]
fn killed_edits_leave_a_whole_book_and_the_next_edit_tidies_up() {
    let desk = Desk::with("buyer.book");
    let whole = || assert_eq!(desk.append("buyer.book", &outright(900)).status, DONE);
    for (round, moment) in (0..300).zip(moments(whole)) {
        let before = desk.trades("buyer.book");
        let trade = outright(1_000 + round);
        let arguments = [vec!["append".into(), "buyer.book".into()], trade].concat();
        kill_midway(&desk, &arguments, moment);
        let book = Book::from_bytes(desk.read("buyer.book"));
        book.check().expect("a killed edit leaves an accepted book");
        assert!((before..=before + 1).contains(&desk.trades("buyer.book")));
        if !temporary(&desk).is_empty() {
            let run = desk.append("buyer.book", &outright(500_000 + round));
            assert_eq!(run.status, DONE, "{}", run.err);
            assert_eq!(desk.files(), ["buyer.book"]);
        }
    }
    assert!(
        desk.trades("buyer.book") > 2,
        "some edits were done in time"
    );
}

#[test]
fn a_new_book_that_is_killed_appears_whole_or_not_at_all() {
    let desk = Desk::new();
    let arguments = ["new", "new.book", &example("desk-curves.txt")].map(str::to_owned);
    let whole = || {
        desk.done(&arguments);
        std::fs::remove_file(desk.path("new.book")).unwrap();
    };
    for moment in moments(whole).take(150) {
        kill_midway(&desk, &arguments, moment);
        if desk.path("new.book").exists() {
            let book = Book::from_bytes(desk.read("new.book"));
            book.check().expect("a new book is whole");
            std::fs::remove_file(desk.path("new.book")).unwrap();
        }
    }
    desk.done(&arguments);
    desk.done(&["import", "new.book", &example("desk-trades.csv"), "--again"]);
    assert_eq!(desk.files(), ["new.book"]);
}
