//! A book that owns its bytes.

use seddolki::{present_value, Book, Date, Ground, Quote, Record};
use seddolki_books::{assemble, buyer, draw_book, draw_record, most_trades, seller, Draw};
use seddolki_model::FULL_BLOCK;

#[test]
fn records_are_those_read_one_by_one() {
    for seed in 0..40 {
        let drawn = draw_book(&mut Draw::new(seed), 100);
        let book = Book::from_bytes(assemble(&drawn));
        let records: Vec<Record> = book.records().unwrap().collect();
        assert_eq!(records, drawn.trades);
        for (position, record) in records.iter().enumerate().take(20) {
            assert_eq!(book.read(position).unwrap(), *record);
        }
        let beyond = book.read(records.len()).unwrap_err();
        assert_eq!(beyond, Ground::Position.alone());
    }
}

#[test]
fn a_book_is_filled_to_the_last_trade_and_emptied_again() {
    let mut draw = Draw::new(5);
    let mut drawn = draw_book(&mut draw, 100);
    drawn.trades.clear();
    let empty = assemble(&drawn);
    let mut book = Book::from_bytes(empty.clone());
    let day = drawn.valuation_day;
    let full = most_trades(&drawn.curves);
    let trade = draw_record(&mut draw, &drawn.curves, 2);
    for position in 0..full {
        assert_eq!(book.append(day, &trade).unwrap(), position);
    }
    let before = book.as_bytes().to_vec();
    assert_eq!(book.append(day, &trade), Err(Ground::BookSpace.alone()));
    assert_eq!(book.preview(day, &trade), Err(Ground::BookSpace.alone()));
    assert_eq!(book.as_bytes(), before);
    for _ in 0..full {
        book.strike(day, 0).unwrap();
    }
    assert_eq!(book.as_bytes(), empty);
}

#[test]
fn a_preview_is_the_margin_after_an_append() {
    for seed in 0..60 {
        let mut draw = Draw::new(seed);
        let drawn = draw_book(&mut draw, 100);
        let trade = draw_record(&mut draw, &drawn.curves, 12);
        let day = drawn.valuation_day;
        let mut book = Book::from_bytes(assemble(&drawn));
        let shown = book.preview(day, &trade);
        assert_eq!(book.as_bytes(), assemble(&drawn), "seed {seed}");
        let due = book.append(day, &trade).and_then(|_| book.margin(day));
        assert_eq!(shown, due, "seed {seed}");
    }
}

#[test]
fn every_place_of_a_block_is_previewed() {
    let mut book = Book::from_bytes(buyer());
    let day = book.valuation_day().unwrap();
    let trade = book.read(0).unwrap();
    book.strike(day, 0).unwrap();
    let places = 0..=2 * FULL_BLOCK;
    for trades in places.clone() {
        let shown = book.preview(day, &trade).unwrap();
        assert_eq!(shown.curves[0].base, 10_000 * (trades as i64 + 1));
        book.append(day, &trade).unwrap();
        assert_eq!(book.margin(day).unwrap(), shown);
    }
    for last in places.rev() {
        let shown = book.margin(day).unwrap();
        book.strike(day, last).unwrap();
        assert_eq!(book.preview(day, &trade).unwrap(), shown);
    }
}

#[test]
fn a_refused_record_names_the_block_it_would_take() {
    let mut book = Book::from_bytes(buyer());
    let day = book.valuation_day().unwrap();
    let trade = book.read(0).unwrap();
    let late = Record {
        first_payment_day: 10_951,
        ..trade
    };
    let refusal = book.append(day, &late).unwrap_err();
    assert_eq!(refusal, Ground::Days.in_block(2));
    assert_eq!(book.preview(day, &late), Err(refusal));
    assert_eq!(book.as_bytes(), buyer());
    assert_eq!(
        refusal.to_string(),
        "refused by ground 9 in block 2: a day, period, payment count or term \
         that the record uses breaks its rule"
    );
}

#[test]
fn any_bytes_can_be_held() {
    for length in [0, 1, 511, 512, 1_024, 65_536, 70_000] {
        let mut book = Book::from_bytes(vec![0; length]);
        let day = Date::FIRST;
        assert!(book.check().is_err());
        assert!(book.valuation_day().is_err());
        assert!(book.margin(day).is_err());
        assert!(book.preview(day, &Record::default()).is_err());
        assert!(book.statement(day).is_err());
        assert!(book.records().is_err());
        assert!(book.read(0).is_err());
        assert!(book.strike(day, 0).is_err());
        assert!(book.append(day, &Record::default()).is_err());
        assert!(book.bootstrap(day, &Quote::default()).is_err());
        assert_eq!(book.as_bytes(), vec![0; length]);
    }
}

#[test]
fn the_example_books_have_their_margins() {
    let totals = [buyer(), seller()].map(|bytes| {
        let report = Book::from_bytes(bytes).margin(Date::FIRST).unwrap();
        report.currencies[0].total
    });
    assert_eq!(totals, [-20_000, -30_000]);
}

#[test]
fn document_01_present_values() {
    let figures = [
        (1_000, 1_000_000, 365, 500),
        (1_000, 1_000_000, 730, 250),
        (1_000_000_000_000, 1_000_000, 10_950, 931),
        (77, 123_456, 0, 77),
    ];
    for (amount, rate, day, value) in figures {
        assert_eq!(present_value(amount, rate, day).unwrap().value, value);
    }
}

/// At 100% a year halves and two quarter: 0.5, 1.5, 500.5, 0.25, 0.5 and 0.75.
#[test]
fn present_values_are_to_the_nearest_and_halves_go_up() {
    let figures = [
        (1, 365, 1),
        (3, 365, 2),
        (1_001, 365, 501),
        (1, 730, 0),
        (2, 730, 1),
        (3, 730, 1),
    ];
    for (amount, day, value) in figures {
        assert_eq!(present_value(amount, 1_000_000, day).unwrap().value, value);
    }
}

#[test]
fn grounds_are_numbered_named_and_said() {
    for (number, ground) in (1..).zip(Ground::ALL) {
        assert_eq!(ground.number(), number);
        assert_eq!(Ground::from_number(number), Some(ground));
        assert!(!ground.name().is_empty() && !ground.sentence().is_empty());
    }
    assert_eq!(Ground::from_number(0), None);
    assert_eq!(Ground::from_number(1 + Ground::ALL.len() as u64), None);
}
