//! Which ground answers where several apply.

use seddolki_books::{assemble, draw_book, Draw};
use seddolki_model::{
    append, bootstrap, check, margin, preview, read, seal, strike, Answer, Book, Date, Ground,
    Quote, BLOCK, FULL_BLOCK, RECORD,
};

/// A drawn book with two full blocks of trades.
fn book() -> Book {
    let books = (0..).map(|seed| draw_book(&mut Draw::new(seed), 1_000));
    let mut long = books.filter(|book| book.trades.len() >= 2 * FULL_BLOCK);
    let mut book = long.next().unwrap();
    book.trades.truncate(2 * FULL_BLOCK);
    book
}

fn refused(ground: Ground, block: usize) -> Answer {
    Err(ground.in_block(block)).into()
}

fn answer(bytes: &[u8]) -> Answer {
    check(bytes, bytes.len())
}

fn set(bytes: &mut [u8], block: usize, at: usize, value: u8) {
    bytes[block * BLOCK + at] = value;
    seal(&mut bytes[block * BLOCK..][..BLOCK]);
}

#[test]
fn an_earlier_block_answers_first() {
    let book = book();
    let mut bytes = assemble(&book);
    let last = bytes.len() / BLOCK - 1;
    bytes[last * BLOCK + 5] ^= 1;
    assert_eq!(answer(&bytes), refused(Ground::Check, last));
    set(&mut bytes, last - 1, 1, 10);
    assert_eq!(answer(&bytes), refused(Ground::TradeBlock, last - 1));
    set(&mut bytes, 1, 20 + 4 + 3, 1);
    assert_eq!(answer(&bytes), refused(Ground::Node, 1));
    set(&mut bytes, 0, 1, 1);
    assert_eq!(answer(&bytes), refused(Ground::Header, 0));
}

#[test]
fn a_lower_ground_answers_first_within_a_block() {
    let mut bytes = assemble(&book());
    set(&mut bytes, 1, 20 + 4 + 3, 1);
    assert_eq!(answer(&bytes), refused(Ground::Node, 1));
    set(&mut bytes, 1, 40 + 2, 1);
    assert_eq!(answer(&bytes), refused(Ground::Curve, 1));
    set(&mut bytes, 1, 0, 3);
    assert_eq!(answer(&bytes), refused(Ground::Place, 1));
    bytes[BLOCK + 508] ^= 1;
    assert_eq!(answer(&bytes), refused(Ground::Check, 1));
}

#[test]
fn an_earlier_record_answers_first() {
    let mut book = book();
    let block = 1 + book.curves.len();
    book.trades[5].kind = 9;
    assert_eq!(answer(&assemble(&book)), refused(Ground::Form, block));
    book.trades[4].zero = 1;
    assert_eq!(answer(&assemble(&book)), refused(Ground::Amounts, block));
    let mut bytes = assemble(&book);
    set(&mut bytes, block, 1, 8);
    assert_eq!(answer(&bytes), refused(Ground::TradeBlock, block));
}

/// What the calls answer that are given a day, all of them asked what no book
/// allows: margin, preview, append, strike, bootstrap.
fn wrongly_asked(bytes: &mut [u8], day: Date) -> [Answer; 5] {
    let used = bytes.len();
    let wrong = [u8::MAX; RECORD];
    [
        margin(bytes, used, day, &mut [0; BLOCK - 1]),
        preview(bytes, used, day, &wrong, &mut []),
        append(bytes, used, day, &wrong),
        strike(bytes, used, day, 2 * FULL_BLOCK),
        bootstrap(bytes, used, day, &Quote::default()),
    ]
}

#[test]
fn the_book_and_then_its_day_answer_before_what_is_asked_of_it() {
    let book = book();
    let (day, other) = (book.valuation_day, book.valuation_day.days() ^ 1);
    let other = Date::from_days(other);
    let mut bytes = assemble(&book);
    let (used, block) = (bytes.len(), bytes.len() / BLOCK);
    let asked = [
        refused(Ground::ReportSpace, 0),
        refused(Ground::Form, block),
        refused(Ground::Form, block),
        refused(Ground::Position, 0),
        refused(Ground::Form, 0),
    ];
    assert_eq!(wrongly_asked(&mut bytes, day), asked);
    let another_day = refused(Ground::ValuationDay, 0);
    assert_eq!(wrongly_asked(&mut bytes, other), [another_day; 5]);
    let read_behind = |bytes: &[u8]| read(bytes, used, 2 * FULL_BLOCK, &mut [0; RECORD]);
    assert_eq!(read_behind(&bytes), refused(Ground::Position, 0));
    bytes[used - 1] ^= 1;
    let first = refused(Ground::Check, block - 1);
    assert_eq!(wrongly_asked(&mut bytes, day), [first; 5]);
    assert_eq!(wrongly_asked(&mut bytes, other), [first; 5]);
    assert_eq!(read_behind(&bytes), first);
}
