//! The files of trades among the examples.

use seddolki::{Book, Date, Record};
use seddolki_format::assemble;
use seddolki_text::{curve_file, trades_file};
use std::fs;
use std::path::Path;

fn example(name: &str) -> Vec<u8> {
    let folder = Path::new(env!("CARGO_MANIFEST_DIR")).join("../../examples");
    fs::read(folder.join(name)).unwrap()
}

fn records(name: &str) -> Vec<Record> {
    let file = trades_file::read(&example(name)).unwrap();
    assert_eq!(file.faults, []);
    file.trades.iter().map(|trade| trade.record).collect()
}

#[test]
fn trades_make_their_books() {
    let file = curve_file::read(&example("curve.txt")).unwrap();
    for name in ["buyer", "seller"] {
        let trades = records(&format!("{name}.csv"));
        let book = assemble(file.account, Date::FIRST, &file.curves, &trades);
        assert_eq!(book, example(&format!("{name}.book")), "{name}");
    }
}

/// What is wrong with the second one the engine alone finds.
#[test]
fn wrong_trades_are_rightly_written() {
    let file = curve_file::read(&example("curve.txt")).unwrap();
    let day = Date::FIRST;
    let mut book = Book::from_bytes(assemble(file.account, day, &file.curves, &[]));
    let [right, wrong] = records("wrong-trades.csv")[..] else {
        panic!("two trades are due");
    };
    assert_eq!(book.append(day, &right), Ok(0));
    assert!(book.append(day, &wrong).is_err());
}
