//! The rules, each written once: what breaks one has its fault from it, and
//! the ground of that fault is the answer.

mod amounts;
pub(crate) mod blocks;
mod curves;
mod days;
mod form;
mod lengthening;

use crate::fields::CASH;
use crate::rule_texts::BOND_PAYMENTS;
use crate::{require, Curve, Fault, Ground, Quote, Record, Tell};

/// Tests a record of a book with these curves.
pub fn accept_record(record: &Record, curves: &[Curve]) -> Result<(), Ground> {
    keep_rules::<()>(record, curves).map_err(|fault| fault.ground)
}

/// Why a book with these curves refuses a record; none if it takes it.
pub fn record_fault(record: &Record, curves: &[Curve]) -> Option<Fault> {
    keep_rules(record, curves).err()
}

/// Grounds 8 to 12, by rising number.
pub(crate) fn keep_rules<W: Tell>(record: &Record, curves: &[Curve]) -> Result<(), Fault<W>> {
    require(Ground::Form, form::allowed_together(record))?;
    require(Ground::Form, curves::of_the_book(record, curves))?;
    require(Ground::Days, days::hold(record))?;
    require(Ground::Amounts, amounts::hold(record))?;
    require(Ground::Amounts, amounts::unused_are_zero(record))?;
    require(Ground::Currency, curves::one_currency(record, curves))?;
    require(Ground::FlowLimit, amounts::flows_within_limit(record))
}

/// Tests a quote for a book with these curves.
pub fn accept_quote(quote: &Quote, curves: &[Curve]) -> Result<(), Ground> {
    keep_quote_rules::<()>(quote, curves).map_err(|fault| fault.ground)
}

/// Why a book with these curves refuses a quote; none if it takes it.
pub fn quote_fault(quote: &Quote, curves: &[Curve]) -> Option<Fault> {
    keep_quote_rules(quote, curves).err()
}

/// The curve, the bond, the components, the cash, then grounds 17 and 18.
fn keep_quote_rules<W: Tell>(quote: &Quote, curves: &[Curve]) -> Result<(), Fault<W>> {
    let bond = quote.purchase();
    require(Ground::Form, curves::has_quoted(quote, curves))?;
    require(Ground::Days, days::payments_hold(&bond, BOND_PAYMENTS))?;
    require(Ground::Amounts, amounts::security_holds(&bond))?;
    require(Ground::Amounts, amounts::has_no_term(&bond))?;
    require(Ground::FlowLimit, amounts::payments_within_limit(&bond))?;
    require(Ground::Node, blocks::components(&quote.components))?;
    require(Ground::Amounts, CASH.of(quote).within_limits())?;
    let curve = &curves[quote.curve - 1];
    require(Ground::CurveEnd, lengthening::curve_has_room(quote, curve))?;
    require(Ground::CurveEnd, lengthening::bond_ends_later(&bond, curve))?;
    require(Ground::RateRange, lengthening::some_rate_fits(quote, curve))
}
