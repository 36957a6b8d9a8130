//! The fields that rules are on: what each counts, its limits, its meaning.

use crate::limits::*;
use crate::words::Unit::Coefficient;
use crate::words::Unit::Money;
use crate::words::Unit::Percent;
use crate::words::Unit::Whole;
use crate::{
    About, Curve, Found, Head, Header, Node, Quote, Record, TradeBlock, Unit, BLOCK, CURRENCIES,
    FIRST_SIDE, HEADER, INDEXED_COUPONS, NO_SECURITY, OUTRIGHT, SECOND_SIDE, SPECIFIED, TRADES,
};
use std::ops::RangeInclusive;

/// A field of a record, a block, a node or a quote.
pub struct Field<T> {
    pub about: &'static About,
    read: fn(&T) -> i128,
}

impl<T> Field<T> {
    /// What the field holds there.
    pub fn of(&self, content: &T) -> Found {
        Found {
            about: self.about,
            number: (self.read)(content),
        }
    }

    /// The numbers that any book may hold there.
    pub fn limits(&self) -> RangeInclusive<i128> {
        self.about.least..=self.about.most
    }
}

const KINDS: Unit = Unit::Named(OUTRIGHT, &["outright", "pool repo", "specified repo"]);
const SIDES: Unit = Unit::Named(
    FIRST_SIDE,
    &["buyer or repo member", "seller or reverse-repo member"],
);
const SECURITIES: Unit = Unit::Named(
    NO_SECURITY,
    &["none", "single payment", "coupons", "indexed coupons"],
);
const BLOCK_KINDS: Unit = Unit::Named(HEADER, &["header", "curve", "trades"]);
const CURRENCY_NAMES: Unit = Unit::Named(1, &CURRENCIES);

/// A table: the field's name, the unit, the limits, the meaning.
macro_rules! fields {
    ($type:ty, $read:expr; $(
        $constant:ident = $name:expr, $unit:expr, $limits:expr, $meaning:literal;
    )*) => {$(
        #[doc = $meaning]
        pub const $constant: Field<$type> = Field {
            about: &About {
                name: $name,
                unit: $unit,
                least: *$limits.start() as i128,
                most: *$limits.end() as i128,
                meaning: $meaning,
            },
            read: $read,
        };
    )*};
    ($type:ty; $(
        $constant:ident = $field:ident, $unit:expr, $limits:expr, $meaning:literal;
    )*) => {$(
        fields! { $type, |content| content.$field.into();
            $constant = stringify!($field), $unit, $limits, $meaning;
        }
    )*};
}

fields! { usize, |used| *used as i128;
    USED = "used", Whole, (2 * BLOCK..=MAX_BLOCKS * BLOCK),
        "a book is blocks of 512 bytes, a header and a curve at least";
}

fields! { u8, |byte| (*byte).into();
    UNNAMED = "unnamed", Whole, (0..=0), "a byte that no field takes";
    STEPS = "steps", Whole, (0..=MAX_STEPS), "steps of a component";
}

fields! { u16, |range| (*range).into();
    RANGES = "ranges", Coefficient, (0..=MAX_RANGE), "range of a component";
}

fields! { i32, |component| (*component).into();
    COMPONENTS = "components", Percent, (-MAX_COMPONENT..=MAX_COMPONENT),
        "how far a component moves the node";
}

fields! { Head;
    CHECK = check, Whole, (0..=u32::MAX), "1 and the other 127 words of the block, added up";
    BLOCK_KIND = kind, BLOCK_KINDS, (HEADER..=TRADES), "the kind of block";
    NUMBER = number, Whole, (0..=MAX_BLOCKS - 1), "blocks are numbered from 0";
}

fields! { Header;
    CURVE_COUNT = curves, Whole, CURVES, "curves of the book";
    TRADE_BLOCKS = trade_blocks, Whole, (0..=MAX_BLOCKS - 2), "blocks of trades";
}

fields! { Curve;
    ID = id, Whole, CURVES, "a curve's id is its block number";
    CURRENCY = currency, CURRENCY_NAMES, (1..=MAX_CURRENCIES), "the currency of the curve";
    NODE_COUNT = node_count, Whole, NODES, "nodes of the curve";
}

fields! { Node;
    DAY = day, Whole, (0..=MAX_DAY), "days rise strictly";
    RATE = rate, Percent, (0..=MAX_RATE), "the rate of the node";
}

fields! { TradeBlock;
    COUNT = count, Whole, (1..=FULL_BLOCK), "trades of the block";
}

fields! { Quote, |quote| quote.curve as i128;
    QUOTED_CURVE = "curve", Whole, CURVES, "the curve that the bond lengthens";
}

fields! { Quote;
    CASH = cash, Money, AMOUNTS, "what the bond costs today";
}

fields! { Record;
    KIND = kind, KINDS, (OUTRIGHT..=SPECIFIED), "the kind of trade";
    SIDE = side, SIDES, (FIRST_SIDE..=SECOND_SIDE), "the side of the account";
    PHASE = phase, Whole, (0..=3), "the phase of a repo";
    SECURITY_CURVE = security_curve, Whole, CURVES, "the curve that payments stand on";
    CASH_CURVE = cash_curve, Whole, CURVES, "the curve that cash stands on";
    SECURITY = security, SECURITIES, (NO_SECURITY..=INDEXED_COUPONS), "what the security pays";
    ZERO = zero, Whole, (0..=0), "bytes 6 and 7 of a record are 0";
    VALUE_DAY_1 = value_day_1, Whole, (0..=MAX_DAY), "day of settlement or of a repo's first leg";
    VALUE_DAY_2 = value_day_2, Whole, (0..=MAX_DAY), "day of a repo's second leg";
    FIRST_PAYMENT_DAY = first_payment_day, Whole, (1..=MAX_DAY), "day of the first payment";
    PERIOD = period, Whole, PERIODS, "days from payment to payment";
    PAYMENT_COUNT = payments, Whole, PAYMENTS, "how many payments the security makes";
    TERM = term, Whole, TERMS, "days of a repo";
    COUPON = coupon, Percent, (0..=MAX_COUPON), "the coupon per period";
    NOMINAL = nominal, Money, AMOUNTS, "the nominal of the security";
    REPO_CASH = repo_cash, Money, AMOUNTS, "the cash of a repo";
    CLEAN_PRICE = price_or_rate, Percent, CLEAN_PRICES, "the clean price of an outright";
    REPO_RATE = price_or_rate, Percent, (0..=MAX_RATE), "the rate of a repo";
    ACCRUED = accrued, Percent, (0..=MAX_ACCRUED), "what has accrued on an outright's security";
    SETTLEMENT_INDEX = settlement_index, Whole, INDICES, "index at settlement, of indexed coupons";
    ISSUE_INDEX = issue_index, Whole, INDICES, "index at issue, of indexed coupons";
}
