//! The books of document 01's list examples, and one to work out by hand.

use crate::assemble;
use seddolki_model::{
    Book, Curve, Date, Node, Record, FIRST_SIDE, OUTRIGHT, SECOND_SIDE, SINGLE_PAYMENT,
};

/// The book of the buyer's example.
pub fn buyer() -> Vec<u8> {
    assemble(&example(FIRST_SIDE))
}

/// The same trade of the seller.
pub fn seller() -> Vec<u8> {
    assemble(&example(SECOND_SIDE))
}

/// The buyer's book at rate 0, where an amount is worth itself on every day.
/// In scenario 2 the rate is 100%: what falls in a year is worth half, in two
/// years a quarter. In the others it stays at 0.
pub fn undiscounted_book() -> Book {
    let mut book = example(FIRST_SIDE);
    let curve = &mut book.curves[0];
    curve.ranges[0] = 400;
    for node in &mut curve.places[..2] {
        node.rate = 0;
    }
    book
}

fn example(side: u8) -> Book {
    Book {
        account: 7,
        valuation_day: Date::FIRST,
        curves: vec![curve()],
        trades: vec![trade(side)],
    }
}

fn curve() -> Curve {
    let node = |day| Node {
        day,
        rate: 250_000,
        components: [250_000, 0, 0],
    };
    Curve {
        steps: [1, 0, 0],
        ranges: [300, 0, 0],
        ..Curve::new(1, 1, &[node(365), node(730)])
    }
}

fn trade(side: u8) -> Record {
    Record {
        kind: OUTRIGHT,
        side,
        security_curve: 1,
        cash_curve: 1,
        security: SINGLE_PAYMENT,
        first_payment_day: 365,
        nominal: 100_000,
        price_or_rate: 700_000,
        ..Record::default()
    }
}
