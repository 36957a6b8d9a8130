//! Days, periods, payment counts and terms that a record uses, ground 9.

use crate::fields::FIRST_PAYMENT_DAY;
use crate::fields::PAYMENT_COUNT;
use crate::fields::PERIOD;
use crate::fields::TERM;
use crate::fields::VALUE_DAY_1;
use crate::fields::VALUE_DAY_2;
use crate::{rule_texts, Kept, Record, Tell, Unit, MAX_DAY};
use std::fmt::{from_fn, Display};

/// Something falls after value day 1: an outright's payment, a repo's second
/// leg.
const LAST_VALUE_DAY_1: i128 = MAX_DAY as i128 - 1;

/// Value days, term, payments, in this order.
pub fn hold<W: Tell>(record: &Record) -> Kept<W> {
    if !record.is_repo() {
        let why = in_time(rule_texts::OUTRIGHT_PAYMENTS);
        VALUE_DAY_1.of(record).within(0..=LAST_VALUE_DAY_1, why)?;
        payments_hold(record, rule_texts::OUTRIGHT_PAYMENTS)
    } else if record.first_leg_settled() {
        TERM.of(record).within_limits()?;
        let days = 0..=record.term.into();
        VALUE_DAY_2.of(record).within(days, rule_texts::SETTLED)?;
        payments_hold(record, rule_texts::SETTLED_PAYMENTS)
    } else {
        legs_hold(record)?;
        payments_hold(record, rule_texts::REPO_PAYMENTS)
    }
}

/// Of the security, if any; `after` says which day it pays after.
pub fn payments_hold<W: Tell>(record: &Record, after: &str) -> Kept<W> {
    if record.has_coupons() {
        payments_have_room(record)?;
    }
    if record.has_security() {
        first_payment_holds(record, after)?;
    }
    Ok(())
}

/// Of a repo with both legs ahead. The term has to agree with the days, not
/// the days with the term.
fn legs_hold<W: Tell>(record: &Record) -> Kept<W> {
    let (day_1, day_2) = (VALUE_DAY_1.of(record), VALUE_DAY_2.of(record));
    let (last, longest) = (VALUE_DAY_2.about.most, TERM.about.most);
    day_1.within(0..=LAST_VALUE_DAY_1, in_time(rule_texts::LEGS))?;
    let apart = day_2.number - day_1.number;
    if apart > longest {
        TERM.of(record).within_limits()?;
    }
    let days = day_1.number + 1..=last.min(day_1.number + longest);
    let why = format_args!("{}, by {longest} days at most", rule_texts::LEGS);
    day_2.within(days, why)?;
    TERM.of(record).is(apart, rule_texts::TERM)
}

/// However early the first payment, the last is not after the last day.
fn payments_have_room<W: Tell>(record: &Record) -> Kept<W> {
    let period = PERIOD.of(record);
    period.within_limits()?;
    let room = i128::from(MAX_DAY) - earliest_payment(record);
    let most = PAYMENT_COUNT.about.most.min(1 + room / period.number);
    let why = format_args!(
        "payments are {} days apart, the last by day {}",
        period.number,
        Unit::Whole.words(MAX_DAY)
    );
    PAYMENT_COUNT.of(record).within(1..=most, why)
}

fn first_payment_holds<W: Tell>(record: &Record, after: &str) -> Kept<W> {
    let mut latest = i128::from(MAX_DAY);
    if record.has_coupons() {
        latest -= i128::from(record.payment_span());
    }
    FIRST_PAYMENT_DAY
        .of(record)
        .within(earliest_payment(record)..=latest, in_time(after))
}

fn earliest_payment(record: &Record) -> i128 {
    i128::from(record.payments_after()) + 1
}

/// What falls after a day falls on the last day of all at the latest.
fn in_time(after: &str) -> impl Display + '_ {
    from_fn(move |f| write!(f, "{after}, by day {}", Unit::Whole.words(MAX_DAY)))
}
