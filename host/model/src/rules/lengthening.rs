//! The curve that a quote lengthens and the rate that it calls for, grounds
//! 17 and 18.

use crate::fields::CASH;
use crate::fields::DAY;
use crate::fields::FIRST_PAYMENT_DAY;
use crate::fields::NODE_COUNT;
use crate::fields::QUOTED_CURVE;
use crate::{bond_value, Curve, Kept, Quote, Record, Tell, Unit, MAX_DAY, MAX_RATE};

/// Ground 17: there is a place for one more node, and a day.
pub fn curve_has_room<W: Tell>(quote: &Quote, curve: &Curve) -> Kept<W> {
    let id = QUOTED_CURVE.of(quote);
    let count = NODE_COUNT.of(curve).number;
    let why = format_args!("this one has {count} nodes, and no curve has more");
    id.require(count < NODE_COUNT.about.most, "another", why)?;
    let last = DAY.of(curve.last_node()).number;
    let day = Unit::Whole.words(last);
    let why = format_args!("this one has its last node on day {day}, and no day is later");
    id.require(last < DAY.about.most, "another", why)
}

/// Ground 17: the last payment falls after the last node.
pub fn bond_ends_later<W: Tell>(bond: &Record, curve: &Curve) -> Kept<W> {
    let last = DAY.of(curve.last_node()).number;
    let span = i128::from(bond.payment_span());
    let earliest = FIRST_PAYMENT_DAY.about.least.max(last + 1 - span);
    let latest = i128::from(MAX_DAY) - span;
    let day = Unit::Whole.words(last);
    let why = format_args!("the last payment falls after day {day}, the curve's last node");
    FIRST_PAYMENT_DAY.of(bond).within(earliest..=latest, why)
}

/// Ground 18: the bond's value is neither above the cash at the highest rate
/// nor below it at the lowest.
pub fn some_rate_fits<W: Tell>(quote: &Quote, curve: &Curve) -> Kept<W> {
    let value = |rate| i128::from(bond_value(curve, quote, rate));
    let why = "what the bond is worth at rates of 100% and 0% on its last payment day";
    CASH.of(quote).within(value(MAX_RATE)..=value(0), why)
}
