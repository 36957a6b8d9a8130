//! The stack that a call needs.

use seddolki_books::{assemble, draw_book, full_book, typical_book, Call, Draw, Engine};
use seddolki_compare::whole_case;
use seddolki_model::{
    bond_of, bond_value, Curve, Layout, Quote, Record, BLOCK, MAX_BLOCKS, PAGE, PAYMENTS, RECORD,
};
use std::thread;

/// What the header promises.
const STACK: usize = 1 << 19;

/// The answer's number of a call on a thread with no more than that.
fn number(bytes: Vec<u8>, call: Call) -> u64 {
    let case = whole_case(bytes, call);
    let run = move || case.run(Engine::Proved).answer.number;
    let thread = thread::Builder::new().stack_size(STACK).spawn(run).unwrap();
    thread.join().unwrap()
}

/// As long as a book can be, without stressed scenarios.
fn long_book() -> Vec<u8> {
    (0..)
        .map(|seed| assemble(&draw_book(&mut Draw::new(seed), 1_000)))
        .find(|bytes| bytes.len() == MAX_BLOCKS * BLOCK)
        .expect("some book is full")
}

#[test]
fn every_call_on_a_full_book_keeps_to_its_stack() {
    let record = [0; RECORD];
    let report = vec![0; BLOCK];
    for call in [
        Call::Check {},
        Call::Margin {
            report: report.clone(),
        },
        Call::Preview { record, report },
        Call::Read {
            position: 500,
            record,
        },
        Call::Append { record },
        Call::Strike { position: 0 },
        Call::PresentValue {
            amount: 1_000,
            rate: 132_500,
            day: 10_949,
            tolerance: 0,
        },
        Call::Statement {
            page: vec![0; PAGE],
        },
    ] {
        let number = number(long_book(), call);
        assert!(number == 0 || number == 8, "{number}");
    }
}

#[test]
fn a_margin_of_all_scenarios_keeps_to_its_stack() {
    for book in [typical_book(), full_book()] {
        let report = vec![0; BLOCK];
        assert_eq!(number(assemble(&book), Call::Margin { report }), 0);
    }
}

#[test]
fn a_preview_of_all_scenarios_keeps_to_its_stack() {
    for mut book in [typical_book(), full_book()] {
        let trade = book.trades.pop().expect("the book has trades");
        let call = Call::Preview {
            record: trade.to_bytes(),
            report: vec![0; BLOCK],
        };
        assert_eq!(number(assemble(&book), call), 0);
    }
}

#[test]
fn a_statement_of_all_scenarios_keeps_to_its_stack() {
    let page = vec![0; PAGE];
    assert_eq!(
        number(assemble(&typical_book()), Call::Statement { page }),
        0
    );
}

/// For the first curve, with as many payments as a bond can have.
fn long_quote(curve: &Curve) -> Quote {
    let bond = Record {
        first_payment_day: 90,
        period: 91,
        payments: *PAYMENTS.end(),
        coupon: 30_000,
        nominal: 100_000_000,
        ..Record::default()
    };
    let mut quote = Quote {
        curve: 1,
        bond: bond_of(&bond),
        cash: 1,
        components: [20_000, 0, 0],
    };
    quote.cash = bond_value(curve, &quote, 132_500);
    quote
}

#[test]
fn a_bootstrap_with_all_payments_keeps_to_its_stack() {
    let book = full_book();
    let quote = long_quote(&book.curves[0]);
    assert_eq!(number(assemble(&book), Call::Bootstrap { quote }), 0);
}
