//! The constants that the C header is to declare: those of the Rust format.

use crate::declared::Numbers;
use seddolki::lent::VERSION;
use seddolki::Ground;
use seddolki_format::{
    block, limits, record, report, Node, BLOCK, BOND, CURRENCIES, LINE, PAGE, RECORD,
};
use std::collections::BTreeSet;

/// Constants of the format by their names there, and the numbers in C.
#[derive(Default)]
pub struct Constants {
    pub names: BTreeSet<String>,
    pub numbers: Numbers,
}

impl Constants {
    fn add(&mut self, name: &str, numbers: &[(&str, i128)]) {
        self.names.insert(name.to_string());
        for &(name, number) in numbers {
            self.add_number(name, number);
        }
    }

    /// A name that is there already has the same number.
    fn add_number(&mut self, name: &str, number: i128) {
        let before = self.numbers.insert(name.to_string(), number);
        assert_eq!(before.unwrap_or(number), number, "{name}");
    }
}

/// One number, by the same name in C.
macro_rules! alone {
    ($all:ident: $($name:ident),*) => {$(
        $all.add(stringify!($name), &[(stringify!($name), limits::$name as i128)]);
    )*};
}

/// A range, in C its least and its most.
macro_rules! ranges {
    ($all:ident: $($name:ident = $least:literal, $most:literal;)*) => {$(
        let (least, most) = limits::$name.into_inner();
        $all.add(stringify!($name), &[($least, least.into()), ($most, most.into())]);
    )*};
}

pub fn limits() -> Constants {
    let mut all = Constants::default();
    alone!(all: MAX_DAY, MAX_AMOUNT, MAX_RATE, MAX_BLOCKS, MAX_CURRENCIES, MAX_STEPS, MAX_RANGE,
        MAX_COMPONENT, FULL_BLOCK, MAX_COUPON, MAX_ACCRUED);
    ranges! { all:
        CURVES = "MIN_CURVES", "MAX_CURVES";
        NODES = "MIN_NODES", "MAX_NODES";
        PERIODS = "MIN_PERIOD", "MAX_PERIOD";
        PAYMENTS = "MIN_PAYMENTS", "MAX_PAYMENTS";
        TERMS = "MIN_TERM", "MAX_TERM";
        AMOUNTS = "MIN_AMOUNT", "MAX_AMOUNT";
        CLEAN_PRICES = "MIN_CLEAN_PRICE", "MAX_CLEAN_PRICE";
        INDICES = "MIN_INDEX", "MAX_INDEX";
    }
    all
}

/// Numbers of bytes and of components, and the last request of document 02,
/// which the wrapper names too.
pub fn add_sizes(all: &mut Constants) {
    let largest = BLOCK * limits::MAX_BLOCKS;
    let components = Node::default().components.len();
    let sizes = [
        ("BLOCK", BLOCK),
        ("RECORD", RECORD),
        ("BOND", BOND),
        ("LINE_SIZE", LINE),
        ("PAGE_SIZE", PAGE),
        ("LARGEST_BOOK", largest),
        ("COMPONENTS", components),
        ("VERSION", 7),
        ("VERSION", VERSION as usize),
    ];
    for (name, size) in sizes {
        all.add_number(name, size as i128);
    }
}

/// A value of a field, by its names in C.
macro_rules! values {
    ($all:ident: $($file:ident::$name:ident = $($of:literal),*;)*) => {$(
        $all.add(stringify!($name), &[$(($of, $file::$name.into())),*]);
    )*};
}

/// The kinds of block, and the kinds, sides and securities of trades.
pub fn values() -> Constants {
    let mut all = Constants::default();
    values! { all:
        block::HEADER = "HEADER_KIND";
        block::CURVE = "CURVE_KIND";
        block::TRADES = "TRADES_KIND";
        report::REPORT = "REPORT_KIND";
        record::OUTRIGHT = "OUTRIGHT";
        record::POOL = "POOL";
        record::SPECIFIED = "SPECIFIED";
        record::FIRST_SIDE = "BUYER", "REPO_MEMBER";
        record::SECOND_SIDE = "SELLER", "REVERSE_REPO_MEMBER";
        record::NO_SECURITY = "NO_SECURITY";
        record::SINGLE_PAYMENT = "SINGLE_PAYMENT";
        record::COUPONS = "COUPONS";
        record::INDEXED_COUPONS = "INDEXED_COUPONS";
    }
    all
}

/// The currencies of the report, and what a call answers.
pub fn add_numbered(all: &mut Constants) {
    for (number, currency) in (1..).zip(CURRENCIES) {
        all.add_number(currency, number);
    }
    all.add_number("DONE", 0);
    for ground in Ground::ALL {
        let name = ground.name().to_uppercase().replace(' ', "_");
        all.add_number(&name, ground.number().into());
    }
}
