//! A book is for one day, and a call that is given another is refused.

use seddolki::{bond_of, Book, Date, Ground, Quote, Record, Refusal};
use seddolki_books::buyer;
use seddolki_format::{seal, valuation_day, Header, Layout, BLOCK};

/// Days whose bytes are all 0, all alike, and all different.
const DAYS: [u32; 5] = [0, 1, 9_816, 0x0102_0304, u32::MAX];

/// The buyer's book for a day.
fn book_for(day: Date) -> Book {
    let mut bytes = buyer();
    let header = Header {
        valuation_day: day.days(),
        ..Header::decode(&bytes)
    };
    header.encode(&mut bytes);
    seal(&mut bytes[..BLOCK]);
    Book::from_bytes(bytes)
}

/// The days before and behind, and those that differ in one bit.
fn other_days(day: Date) -> impl Iterator<Item = Date> {
    let days = day.days();
    let near = [days.wrapping_sub(1), days.wrapping_add(1)];
    let bits = (0..u32::BITS).map(move |bit| days ^ (1 << bit));
    near.into_iter().chain(bits).map(Date::from_days)
}

/// A bond for the buyer's curve, whose last node is on day 730.
fn quote() -> Quote {
    let bond = Record {
        first_payment_day: 365,
        period: 365,
        payments: 3,
        coupon: 250_000,
        nominal: 100_000_000,
        ..Record::default()
    };
    Quote {
        curve: 1,
        bond: bond_of(&bond),
        cash: 100_000_000,
        components: [0; 3],
    }
}

/// A call that is given the current day.
type Call = fn(&mut Book, Date) -> Result<(), Refusal>;

/// Each of the six, as it is done.
const RIGHT: [Call; 6] = [
    |book, day| book.margin(day).map(drop),
    |book, day| book.statement(day).map(drop),
    |book, day| book.preview(day, &book.read(0)?).map(drop),
    |book, day| book.append(day, &book.read(0)?).map(drop),
    |book, day| book.strike(day, 0),
    |book, day| book.bootstrap(day, &quote()),
];

/// Those that can be given something wrong, and the ground of it.
const WRONG: [(Call, Ground); 4] = [
    (
        |book, day| book.preview(day, &Record::default()).map(drop),
        Ground::Form,
    ),
    (
        |book, day| book.append(day, &Record::default()).map(drop),
        Ground::Form,
    ),
    (|book, day| book.strike(day, 1), Ground::Position),
    (
        |book, day| book.bootstrap(day, &Quote::default()),
        Ground::Form,
    ),
];

fn assert_refused(mut book: Book, call: Call, day: Date, refusal: Refusal) {
    let before = book.as_bytes().to_vec();
    assert_eq!(call(&mut book, day), Err(refusal), "{day}");
    assert_eq!(book.as_bytes(), before, "{day}");
}

#[test]
fn a_book_names_its_day() {
    for day in DAYS.map(Date::from_days) {
        assert_eq!(book_for(day).valuation_day(), Ok(day));
    }
}

#[test]
fn on_its_day_a_book_is_taken_and_keeps_the_day() {
    for day in DAYS.map(Date::from_days) {
        for call in RIGHT {
            let mut book = book_for(day);
            assert_eq!(call(&mut book, day), Ok(()), "{day}");
            assert_eq!(book.valuation_day(), Ok(day));
        }
    }
}

#[test]
fn on_another_day_every_call_is_refused_and_leaves_the_book() {
    let refusal = Ground::ValuationDay.alone();
    for day in DAYS.map(Date::from_days) {
        for other in other_days(day) {
            for call in RIGHT.into_iter().chain(WRONG.map(|(call, _)| call)) {
                assert_refused(book_for(day), call, other, refusal);
            }
        }
    }
}

#[test]
fn on_its_day_the_rest_is_looked_at() {
    let day = Date::from_days(9_816);
    for (call, ground) in WRONG {
        let refusal = call(&mut book_for(day), day).unwrap_err();
        assert_eq!(refusal.ground, ground);
    }
}

#[test]
fn the_blocks_are_looked_at_before_the_day() {
    for block in 0..buyer().len() / BLOCK {
        let mut bytes = buyer();
        bytes[BLOCK * (block + 1) - 1] ^= 1;
        let book = Book::from_bytes(bytes);
        let refusal = Ground::Check.in_block(block);
        assert_eq!(book.valuation_day(), Err(refusal));
        for call in RIGHT {
            assert_refused(book.clone(), call, Date::LAST, refusal);
        }
    }
}

#[test]
fn report_and_statement_are_the_same_on_every_day() {
    let report = |day| book_for(day).margin(day).unwrap();
    let page = |day| book_for(day).statement(day).unwrap();
    for day in DAYS.map(Date::from_days) {
        assert_eq!(report(day), report(Date::FIRST));
        assert_eq!(page(day), page(Date::FIRST));
    }
}

#[test]
fn bytes_of_another_day_in_the_header_alone_are_a_wrong_check() {
    let mut bytes = buyer();
    assert_eq!(valuation_day(&bytes), Date::FIRST);
    bytes[12] ^= 1;
    let refusal = Book::from_bytes(bytes).check().unwrap_err();
    assert_eq!(refusal, Ground::Check.in_block(0));
}

#[test]
fn a_byte_behind_the_day_is_a_wrong_header() {
    for at in [16, 17, 18, 32, 159, 507] {
        let mut bytes = buyer();
        bytes[at] = 1;
        seal(&mut bytes[..BLOCK]);
        let refusal = Book::from_bytes(bytes).check().unwrap_err();
        assert_eq!(refusal, Ground::Header.in_block(0), "byte {at}");
    }
}
