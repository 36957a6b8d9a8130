//! The words of a trade.

use seddolki_format::record::{
    COUPONS, FIRST_SIDE, INDEXED_COUPONS, NO_SECURITY, OUTRIGHT, POOL, SECOND_SIDE, SINGLE_PAYMENT,
    SPECIFIED,
};
use seddolki_format::Record;
use std::ops::RangeInclusive;

/// A word, and the number that the record holds for it.
pub type Word = (&'static str, u8);

const KINDS: [Word; 3] = [
    ("outright", OUTRIGHT),
    ("pool repo", POOL),
    ("specified repo", SPECIFIED),
];

/// An outright's, then a repo's.
const SIDES: [Word; 4] = [
    ("buyer", FIRST_SIDE),
    ("seller", SECOND_SIDE),
    ("repo", FIRST_SIDE),
    ("reverse repo", SECOND_SIDE),
];

/// Each at the place of its number.
const SECURITIES: [Word; 4] = [
    ("none", NO_SECURITY),
    ("single payment", SINGLE_PAYMENT),
    ("coupons", COUPONS),
    ("indexed coupons", INDEXED_COUPONS),
];

pub(crate) fn kinds(_: &Record) -> &'static [Word] {
    &KINDS
}

/// The sides of the trade's kind; all of them while that is not known.
pub(crate) fn sides(trade: &Record) -> &'static [Word] {
    match trade.kind {
        OUTRIGHT => &SIDES[..2],
        POOL | SPECIFIED => &SIDES[2..],
        _ => &SIDES,
    }
}

/// The securities of the trade's kind and phase; all that may be while one of
/// these is not known.
pub(crate) fn securities(trade: &Record) -> &'static [Word] {
    match trade.kind {
        OUTRIGHT | SPECIFIED => {}
        POOL if phases(POOL).contains(&trade.phase) => {}
        _ => return &SECURITIES,
    }
    let allowed = trade.securities();
    &SECURITIES[(*allowed.start()).into()..=(*allowed.end()).into()]
}

/// The phases of a kind.
pub(crate) fn phases(kind: u8) -> RangeInclusive<u8> {
    match kind {
        POOL => 1..=3,
        SPECIFIED => 1..=2,
        _ => 0..=0,
    }
}

/// A kind as a sentence has it; none while it is not known.
pub fn a_trade_of(kind: u8) -> Option<&'static str> {
    match kind {
        OUTRIGHT => Some("an outright"),
        POOL => Some("a pool repo"),
        SPECIFIED => Some("a specified repo"),
        _ => None,
    }
}
