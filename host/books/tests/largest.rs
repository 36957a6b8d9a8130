//! The books with as much in flows as a book can have.

use seddolki_books::{assemble, Largest};
use seddolki_model::{
    cash_flows, check, report, Book, CurrencyFigures, BLOCK, MAX_AMOUNT, MAX_BLOCKS,
};
use std::ops::RangeInclusive;

#[test]
fn they_are_accepted_and_full() {
    for (curves, currencies) in [(1, 1), (8, 1), (8, 3)] {
        for book in Largest::all(curves, currencies).map(Largest::book) {
            let bytes = assemble(&book);
            assert_eq!(bytes.len(), MAX_BLOCKS * BLOCK);
            assert_eq!(check(&bytes, bytes.len()).number, 0);
        }
    }
}

/// What the trades bring in less what they pay, undiscounted.
fn undiscounted(book: &Book) -> i64 {
    let flows = book.trades.iter().flat_map(cash_flows);
    flows.map(|flow| flow.sign * flow.amount as i64).sum()
}

#[test]
fn every_payment_in_the_term_is_a_flow_of_10_to_the_12() {
    let [book, ..] = Largest::all(1, 1).map(Largest::book);
    let amounts: Vec<u128> = cash_flows(&book.trades[0])
        .iter()
        .map(|flow| flow.amount)
        .collect();
    let [cash, back, payments @ ..] = &amounts[..] else {
        panic!("{amounts:?}");
    };
    assert_eq!(payments, [MAX_AMOUNT.into(); 119]);
    // 200% for two years, less 15% of that: 2.7 times the cash comes back
    assert_eq!((*cash, *back), (370_370_370_370, 999_999_999_999));
    let one = 119_629_629_629_629;
    assert_eq!(undiscounted(&book), 1_134 * one);
}

/// As at 100% less than a millionth of a flow is left, so much is lost.
fn nearly(most: i64) -> RangeInclusive<i64> {
    most - most / 1_000_000..=most
}

#[test]
fn their_figures_are_as_high_and_as_low_as_their_flows_sum_to() {
    let books = Largest::all(1, 1).map(Largest::book);
    let most = undiscounted(&books[0]);
    let [high, low, from_high, from_none] = books.each_ref().map(|book| report(book).currencies[0]);
    let still = |variation| CurrencyFigures {
        initial: 0,
        variation,
        total: variation,
    };
    assert_eq!((high, low), (still(most), still(-most)));
    assert_eq!(from_high.variation, most);
    assert!(nearly(most).contains(&from_high.initial));
    assert!(nearly(most).contains(&from_none.initial));
    assert_eq!(from_none.total, -most);
}
