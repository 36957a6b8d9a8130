//! The account statement as PDF, which the program gs makes.

mod tool;

use seddolki::{Book, Record};
use seddolki_format::assemble;
use seddolki_format::block::{valuation_day, Curve, BLOCK};
use seddolki_format::layout::Layout;
use seddolki_format::page::{LINE, PAGE};
use std::ffi::OsStr;
use std::process::Command;
use tool::{commands, finish, Desk, Run, DONE, FAILED, MISUSED};

const AS_PDF: [&str; 5] = ["statement", "buyer.book", "--to", "page.pdf", "--pdf"];

/// What it tells of the file.
const TOLD: &str = "page.pdf: account 7, valuation day 16 November 2026\n";

/// Runs with that path of programs.
fn run_on(path: impl AsRef<OsStr>, desk: &Desk, arguments: &[&str]) -> Run {
    finish(desk.tool(arguments).env("PATH", path))
}

/// Runs with a script in the place of gs.
fn run_with(script: &str, desk: &Desk, arguments: &[&str]) -> Run {
    let place = Desk::new();
    place.write("script", format!("#!/bin/sh\n{script}\n"));
    // a file that is open for writing here, or in a run that another test is
    // just starting, could not be run
    assert_eq!(place.shell("install -m 755 script gs").status, DONE);
    let path = std::env::var("PATH").unwrap();
    let path = format!("{}:{path}", place.path("").display());
    run_on(path, desk, arguments)
}

/// A desk with a buyer.book that has the longest page, which is longer than
/// what a pipe holds.
fn full() -> Desk {
    let desk = Desk::with("buyer.book");
    let book = desk.read("buyer.book");
    let curve = Curve::decode(&book[BLOCK..]);
    let trade = Book::from_bytes(book.clone()).read(0).unwrap();
    let trades: Vec<Record> = vec![trade; 1_134];
    desk.write(
        "buyer.book",
        assemble(7, valuation_day(&book), &[curve], &trades),
    );
    desk
}

fn page(desk: &Desk) -> String {
    desk.done(&["statement", "buyer.book"])
}

#[test]
fn the_program_gets_the_page_and_what_it_makes_is_written() {
    let desk = Desk::with("buyer.book");
    let script = "cat > input; echo 'a word' >&2; printf '%%PDF-made'";
    let run = run_with(script, &desk, &AS_PDF);
    assert_eq!(
        (run.status, run.out.as_str(), run.err.as_str()),
        (DONE, TOLD, "")
    );
    assert_eq!(desk.read("page.pdf"), b"%PDF-made");
    assert_eq!(desk.read("input"), page(&desk).as_bytes());
    assert_eq!(desk.files(), ["buyer.book", "input", "page.pdf"]);
}

#[test]
fn nothing_is_written_where_the_program_makes_no_pdf() {
    let desk = Desk::with("buyer.book");
    for (script, reason) in [
        ("cat >&2; printf '%%PDF-half'; exit 1", "account 7"),
        (
            "cat > /dev/null; printf '\\nno \\033room\\n2\\n' >&2; exit 3",
            "no \\u{1b}room",
        ),
        ("cat > /dev/null", "exit status: 0"),
        ("cat", "exit status: 0"),
        ("exit 7", "exit status: 7"),
        ("printf '%%PDF-half'; kill -9 $$", "signal: 9 (SIGKILL)"),
    ] {
        let run = run_with(script, &desk, &AS_PDF);
        assert_eq!((run.status, run.out.as_str()), (FAILED, ""), "{script}");
        let told = run.err.trim_end();
        assert_eq!(
            told,
            format!("seddolki: gs: made no PDF: {reason}"),
            "{script}"
        );
        assert_eq!(desk.files(), ["buyer.book"], "{script}");
    }
    desk.write("page.pdf", "my notes");
    let forced = [&AS_PDF[..], &["--force"]].concat();
    assert_eq!(
        run_with("cat > /dev/null; exit 1", &desk, &forced).status,
        FAILED
    );
    assert_eq!(desk.read("page.pdf"), b"my notes");
}

#[test]
fn a_program_that_is_not_there_is_named_with_its_package() {
    let desk = Desk::with("buyer.book");
    let run = run_on(desk.path("nowhere"), &desk, &AS_PDF);
    let reason = "gs: the program that makes a PDF is not there; \
                  Debian has it in the package ghostscript";
    assert_eq!((run.status, run.out.as_str()), (FAILED, ""));
    assert_eq!(run.err, format!("seddolki: {reason}\n"));
    assert_eq!(desk.files(), ["buyer.book"]);
    // the page itself needs no program
    let run = run_on(desk.path("nowhere"), &desk, &AS_PDF[..4]);
    assert_eq!((run.status, run.out.as_str()), (DONE, TOLD));
}

#[test]
fn a_program_that_cannot_be_run_is_told() {
    let desk = Desk::with("buyer.book");
    let place = Desk::new();
    place.write("gs", "");
    let run = run_on(place.path(""), &desk, &AS_PDF);
    assert_eq!((run.status, run.out.as_str()), (FAILED, ""));
    assert_eq!(run.err, "seddolki: gs: permission denied\n");
    assert_eq!(desk.files(), ["buyer.book"]);
}

#[test]
fn a_program_may_write_before_it_has_read_all() {
    let desk = full();
    let script = "printf '%%PDF'; head -c 200000 /dev/zero; cat";
    let run = run_with(script, &desk, &AS_PDF);
    assert_eq!((run.status, run.out.as_str()), (DONE, TOLD), "{}", run.err);
    let page = page(&desk);
    assert_eq!(page.len(), PAGE);
    let due = [b"%PDF", &[0; 200_000][..], page.as_bytes()].concat();
    assert!(desk.read("page.pdf") == due);
}

#[test]
fn a_program_that_does_not_read_all_made_nothing() {
    let desk = full();
    let run = run_with("printf '%%PDF'", &desk, &AS_PDF);
    assert_eq!((run.status, run.out.as_str()), (FAILED, ""));
    assert_eq!(desk.files(), ["buyer.book"]);
}

#[test]
fn a_pdf_goes_to_a_file() {
    let desk = Desk::with("buyer.book");
    let run = desk.run(&["statement", "buyer.book", "--pdf"]);
    assert_eq!((run.status, run.out.as_str()), (MISUSED, ""));
    assert!(run.err.contains("--to <FILE>"), "{}", run.err);
    let reason = desk.ended(MISUSED, &["statement", "buyer.book", "--pdf", "--to", "-"]);
    assert_eq!(reason, "--pdf takes a file, and not standard output");
}

#[test]
fn the_help_shows_commands_that_run_as_written() {
    let desk = Desk::started();
    let commands = commands(&desk.done(&["statement", "--help"]));
    assert_eq!(commands.len(), 3, "{commands:?}");
    for command in &commands {
        let words: Vec<&str> = command.split_whitespace().collect();
        let run = run_with("cat > /dev/null; printf '%%PDF'", &desk, &words);
        assert_eq!((run.status, run.err.as_str()), (DONE, ""), "{command}");
    }
    let page = desk.done(&["statement", "desk.book"]);
    assert_eq!(desk.read("desk.txt"), page.as_bytes());
    assert_eq!(desk.read("desk.pdf"), b"%PDF");
}

/// What gs makes of page.pdf for one of its devices.
fn by_device(desk: &Desk, device: &str) -> Run {
    let options = ["-q", "-dBATCH", "-dNOPAUSE", "-sOutputFile=-"];
    let mut command = Command::new("gs");
    command.args(options).arg(format!("-sDEVICE={device}"));
    finish(command.arg(desk.path("page.pdf")))
}

/// The corners of what is drawn on each sheet, in points from the lower left.
fn drawn(desk: &Desk) -> Vec<[f64; 4]> {
    let text = by_device(desk, "bbox").err;
    let lines = text.lines();
    let boxes = lines.filter_map(|line| line.strip_prefix("%%HiResBoundingBox: "));
    let corners = |numbers: &str| -> [f64; 4] {
        let numbers = numbers.split_whitespace().map(|number| number.parse());
        let numbers: Vec<f64> = numbers.collect::<Result<_, _>>().unwrap();
        numbers.try_into().unwrap()
    };
    boxes.map(corners).collect()
}

/// The words of every line that has some.
fn words(text: &str) -> Vec<Vec<&str>> {
    let lines = text.lines().map(|line| line.split_whitespace().collect());
    lines.filter(|words: &Vec<_>| !words.is_empty()).collect()
}

#[test]
fn the_real_program_puts_every_line_on_a4() {
    let desk = full();
    assert_eq!(desk.done(&AS_PDF), TOLD);
    assert!(desk.read("page.pdf").starts_with(b"%PDF"));
    let read = by_device(&desk, "txtwrite").out;
    assert!(words(&read) == words(&page(&desk)), "{read}");
    let (sheets, margin) = (drawn(&desk), 50.0);
    assert_eq!(sheets.len(), (PAGE / LINE).div_ceil(55));
    for [left, low, right, high] in sheets {
        assert!(left >= margin && right <= 595.0 - margin, "{left} {right}");
        assert!(low >= margin && high <= 842.0 - margin, "{low} {high}");
    }
}
