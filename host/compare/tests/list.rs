//! The list program: document 01's cases to the byte, refused input, and random books beside the model.

use seddolki_books::{assemble, buyer, damage_book, draw_book, seller, undiscounted_book, Draw};
use seddolki_model::{accept, list, Date, Ground};
use std::io::Write;
use std::process::{Command, Stdio};

/// What the proved program prints for these bytes on standard input.
fn printed(input: &[u8]) -> String {
    let program = concat!(env!("CARGO_MANIFEST_DIR"), "/../../target/bin/list");
    let mut run = Command::new(program)
        .stdin(Stdio::piped())
        .stdout(Stdio::piped())
        .spawn()
        .expect("target/bin/list, which `.ci/archives` makes");
    // it stops reading behind the longest book, so a longer input may not be taken whole
    let _ = run.stdin.take().unwrap().write_all(input);
    let output = run.wait_with_output().unwrap();
    String::from_utf8(output.stdout).unwrap()
}

#[test]
fn the_buyer_s_book() {
    assert_eq!(
        printed(&buyer()),
        "account 7\n\
         curve 1 TRY base 10000 loss 30000 scenario 2 tolerance 1\n\
         currency TRY initial 30000 variation 10000 total -20000\n"
    );
}

#[test]
fn the_seller_s_book() {
    assert_eq!(
        printed(&seller()),
        "account 7\n\
         curve 1 TRY base -10000 loss 20000 scenario 0 tolerance 1\n\
         currency TRY initial 20000 variation -10000 total -30000\n"
    );
}

#[test]
fn a_book_of_any_day_lists_as_on_the_first() {
    for bytes in [buyer(), seller(), assemble(&undiscounted_book())] {
        let mut book = accept(&bytes, bytes.len()).unwrap();
        assert_eq!(book.valuation_day, Date::FIRST);
        for day in [1, 9_815, 0x0102_0304, u32::MAX] {
            book.valuation_day = Date::from_days(day);
            assert_eq!(printed(&assemble(&book)), printed(&bytes), "day {day}");
        }
    }
}

#[test]
fn lengths_that_no_book_has() {
    for length in [0, 1, 511, 65_537, 200_000] {
        assert_eq!(printed(&vec![0; length]), "refused 1 0\n", "{length} bytes");
    }
}

#[test]
fn random_books_whole_and_spoiled() {
    let mut draw = Draw::new(7);
    for _ in 0..40 {
        let book = draw_book(&mut draw, 500);
        let bytes = assemble(&book);
        assert_eq!(printed(&bytes), list(&bytes));
        for &ground in &Ground::ON_BOOK[1..] {
            if let Some((spoiled, _)) = damage_book(&mut draw, &book, ground) {
                assert_eq!(printed(&spoiled), list(&spoiled), "ground {ground:?}");
            }
        }
    }
}
