//! The curves that a record stands on and that a quote lengthens, grounds 8
//! and 11.

use crate::fields::CASH_CURVE;
use crate::fields::QUOTED_CURVE;
use crate::fields::SECURITY_CURVE;
use crate::{rule_texts, Curve, Found, Kept, Quote, Record, Tell, CURRENCIES};
use seddolki_format::text::listed;
use std::fmt::{from_fn, Display};

/// Ground 8: the ids are those of curves that the book has.
pub fn of_the_book<W: Tell>(record: &Record, curves: &[Curve]) -> Kept<W> {
    one_of_all(CASH_CURVE.of(record), curves)?;
    let security_curve = SECURITY_CURVE.of(record);
    if record.has_security() {
        one_of_all(security_curve, curves)
    } else {
        security_curve.is_zero(rule_texts::NO_SECURITY_CURVE)
    }
}

/// Ground 8, of the curve that a quote lengthens.
pub fn has_quoted<W: Tell>(quote: &Quote, curves: &[Curve]) -> Kept<W> {
    one_of_all(QUOTED_CURVE.of(quote), curves)
}

fn one_of_all<W: Tell>(id: Found, curves: &[Curve]) -> Kept<W> {
    id.one_of(1..=curves.len() as u8, all(curves))
}

/// Ground 11: where a record uses both curves, they are of one currency.
pub fn one_currency<W: Tell>(record: &Record, curves: &[Curve]) -> Kept<W> {
    if !record.has_security() {
        return Ok(());
    }
    let curve = |id: u8| &curves[usize::from(id) - 1];
    let (security, cash) = (curve(record.security_curve), curve(record.cash_curve));
    let same = (1..)
        .zip(curves)
        .filter(|(_, curve)| curve.currency == cash.currency)
        .map(|(id, _)| id);
    let why = format_args!(
        "curve {} is in {}, and cash curve {} in {}",
        record.security_curve,
        currency_of(security),
        record.cash_curve,
        currency_of(cash)
    );
    SECURITY_CURVE.of(record).one_of(same, why)
}

/// The curves of a book in words.
fn all(curves: &[Curve]) -> impl Display + '_ {
    from_fn(move |f| {
        let names = (1..)
            .zip(curves)
            .map(|(id, curve)| format!("{id} in {}", currency_of(curve)));
        write!(f, "the book has curve {}", listed(names, "and"))
    })
}

fn currency_of(curve: &Curve) -> &'static str {
    let place = usize::from(curve.currency).checked_sub(1);
    let name = place.and_then(|place| CURRENCIES.get(place));
    name.unwrap_or(&"no currency")
}
