//! Amounts, prices, rates and indices, fields due to be 0, and the flows
//! that amounts make, grounds 10 and 12.

use crate::fields::*;
use crate::{named_flows, payments, rule_texts, Kept, Leg, Record, Tell, Unit, MAX_AMOUNT};

/// Ground 10, on the fields that the record uses.
pub fn hold<W: Tell>(record: &Record) -> Kept<W> {
    if record.is_repo() {
        REPO_CASH.of(record).within_limits()?;
        REPO_RATE.of(record).within_limits()?;
    } else {
        CLEAN_PRICE.of(record).within_limits()?;
        ACCRUED.of(record).within_limits()?;
    }
    security_holds(record)
}

/// The same, on those of the security.
pub fn security_holds<W: Tell>(record: &Record) -> Kept<W> {
    if record.has_security() {
        NOMINAL.of(record).within_limits()?;
    }
    if record.has_coupons() {
        COUPON.of(record).within_limits()?;
    }
    if record.is_indexed() {
        SETTLEMENT_INDEX.of(record).within_limits()?;
        ISSUE_INDEX.of(record).within_limits()?;
    }
    Ok(())
}

/// Ground 10, on the fields that the record does not use.
pub fn unused_are_zero<W: Tell>(record: &Record) -> Kept<W> {
    ZERO.of(record).within_limits()?;
    if record.is_repo() {
        all_zero(record, &[ACCRUED], rule_texts::NO_ACCRUED)?;
    } else {
        let second_leg = [VALUE_DAY_2, TERM, REPO_CASH];
        all_zero(record, &second_leg, rule_texts::NO_SECOND_LEG)?;
    }
    if record.first_leg_settled() {
        all_zero(record, &[VALUE_DAY_1], rule_texts::NO_FIRST_LEG)?;
    }
    if !record.has_security() {
        all_zero(
            record,
            &[FIRST_PAYMENT_DAY, NOMINAL],
            rule_texts::NO_SECURITY,
        )?;
    }
    if !record.has_coupons() {
        let coupons = [PERIOD, PAYMENT_COUNT, COUPON];
        all_zero(record, &coupons, rule_texts::NO_COUPONS)?;
    }
    if !record.is_indexed() {
        let indices = [SETTLEMENT_INDEX, ISSUE_INDEX];
        all_zero(record, &indices, rule_texts::NO_INDICES)?;
    }
    Ok(())
}

/// Ground 10, on the term of a quoted bond.
pub fn has_no_term<W: Tell>(bond: &Record) -> Kept<W> {
    all_zero(bond, &[TERM], rule_texts::NO_TERM)
}

fn all_zero<W: Tell>(record: &Record, fields: &[Field<Record>], why: &str) -> Kept<W> {
    let mut found = fields.iter().map(|field| field.of(record));
    found.try_for_each(|found| found.is_zero(why))
}

/// Ground 12.
pub fn flows_within_limit<W: Tell>(record: &Record) -> Kept<W> {
    let mut flows = named_flows(record).into_iter();
    flows.try_for_each(|(leg, flow)| within_limit(record, leg, flow.day, flow.amount))
}

/// Ground 12, on the security's payments alone.
pub fn payments_within_limit<W: Tell>(record: &Record) -> Kept<W> {
    let mut payments = payments(record).into_iter();
    payments.try_for_each(|(day, amount)| within_limit(record, Leg::Payment, day, amount))
}

fn within_limit<W: Tell>(record: &Record, leg: Leg, day: u64, amount: u128) -> Kept<W> {
    let (field, name) = made_by(leg, record);
    let unit = field.about.unit;
    let why = format_args!(
        "it makes a {name} of {} on day {}, and a flow is {} at most",
        unit.words(amount as i128),
        Unit::Whole.words(day),
        unit.words(MAX_AMOUNT)
    );
    let holds = amount <= MAX_AMOUNT.into();
    field.of(record).require(holds, "less", why)
}

/// The amount that a flow comes from, and the flow's name.
fn made_by(leg: Leg, record: &Record) -> (Field<Record>, &'static str) {
    match leg {
        Leg::First if record.is_repo() => (REPO_CASH, "first leg"),
        Leg::First => (NOMINAL, "settlement cash"),
        Leg::Second => (REPO_CASH, "second leg"),
        Leg::Payment => (NOMINAL, "payment"),
    }
}
