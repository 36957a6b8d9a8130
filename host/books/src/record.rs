//! Records drawn at random that pass grounds 8 to 12.

use crate::{Draw, PaymentDays};
use seddolki_model::limits::*;
use seddolki_model::{accept_record, largest, Curve, Ground, Record, ONE, TABLE};
use std::ops::RangeInclusive;

/// Kind, phase, side and security of every form that a trade can have.
pub fn forms() -> impl Iterator<Item = Record> {
    TABLE.iter().flat_map(|&(kind, phase, side, _)| {
        let form = Record {
            kind,
            phase,
            side,
            ..Record::default()
        };
        form.securities()
            .map(move |security| Record { security, ..form })
    })
}

/// The same of a trade.
pub fn form_of(record: &Record) -> (u8, u8, u8, u8) {
    (record.kind, record.phase, record.side, record.security)
}

/// A record that a book with these curves accepts, with at most so many
/// payments. A repo's security pays in each way equally often.
pub fn draw_record(draw: &mut Draw, curves: &[Curve], most_payments: u64) -> Record {
    let paying = draw.pick(&PaymentDays::ALL);
    draw_record_paying(draw, curves, most_payments, paying)
}

/// The same, a repo's security paying in this way.
pub fn draw_record_paying(
    draw: &mut Draw,
    curves: &[Curve],
    most_payments: u64,
    paying: PaymentDays,
) -> Record {
    let mut record = Record::default();
    draw_combination(draw, &mut record);
    draw_curve_ids(draw, &mut record, curves);
    draw_value_days(draw, &mut record, paying);
    draw_price(draw, &mut record);
    if record.has_security() {
        let days = paying.days(&record);
        draw_security(draw, &mut record, days, most_payments);
        paying.arrange(draw, &mut record);
    }
    bring_within_limit(&mut record, curves);
    record
}

fn draw_combination(draw: &mut Draw, record: &mut Record) {
    (record.kind, record.phase, record.side, _) = draw.pick(&TABLE);
    record.security = draw.within(wide(record.securities())) as u8;
}

fn draw_curve_ids(draw: &mut Draw, record: &mut Record, curves: &[Curve]) {
    let cash = draw.place(curves.len());
    record.cash_curve = curves[cash].id;
    if record.has_security() {
        let same = |curve: &&Curve| curve.currency == curves[cash].currency;
        let ids: Vec<u8> = curves.iter().filter(same).map(|curve| curve.id).collect();
        record.security_curve = draw.pick(&ids);
    }
}

/// Leaves a day for payments that fall behind the value days.
fn draw_value_days(draw: &mut Draw, record: &mut Record, paying: PaymentDays) {
    let pays_behind = !record.is_repo() || paying == PaymentDays::Behind;
    let last = MAX_DAY - u64::from(record.has_security() && pays_behind);
    if !record.is_repo() {
        record.value_day_1 = draw.edge(0..=last) as u16;
        return;
    }
    record.term = draw.edge(wide(TERMS)) as u16;
    let term = u64::from(record.term);
    if record.first_leg_settled() {
        record.value_day_2 = draw.edge(0..=term) as u16;
    } else {
        record.value_day_1 = draw.edge(0..=last - term) as u16;
        record.value_day_2 = record.value_day_1 + record.term;
    }
}

fn draw_price(draw: &mut Draw, record: &mut Record) {
    if record.is_repo() {
        record.repo_cash = draw.edge(AMOUNTS);
        record.price_or_rate = draw.edge(0..=MAX_RATE) as u32;
    } else if draw.once_in(4) {
        record.price_or_rate = ONE as u32;
    } else {
        record.price_or_rate = draw.edge(wide(CLEAN_PRICES)) as u32;
        record.accrued = draw.edge(0..=MAX_ACCRUED.into()) as u32;
    }
}

/// What the security pays, on some of these days.
pub(crate) fn draw_security(
    draw: &mut Draw,
    record: &mut Record,
    days: RangeInclusive<u64>,
    most_payments: u64,
) {
    record.nominal = draw.edge(AMOUNTS);
    let (first, last) = days.into_inner();
    if record.has_coupons() {
        draw_schedule(draw, record, last - first, most_payments);
        record.coupon = draw.edge(0..=MAX_COUPON.into()) as u32;
    }
    if record.is_indexed() {
        record.settlement_index = draw.edge(wide(INDICES)) as u32;
        record.issue_index = draw.edge(wide(INDICES)) as u32;
    }
    record.first_payment_day = draw.edge(first..=last - record.payment_span()) as u16;
}

/// Payments and period that need no more room from the first to the last.
fn draw_schedule(draw: &mut Draw, record: &mut Record, room: u64, most_payments: u64) {
    let most = most_payments.min(room + 1).min((*PAYMENTS.end()).into());
    let payments = draw.edge(u64::from(*PAYMENTS.start())..=most);
    let longest = room.checked_div(payments - 1).unwrap_or(u64::MAX);
    let longest = longest.min((*PERIODS.end()).into());
    record.payments = payments as u16;
    record.period = draw.edge(u64::from(*PERIODS.start())..=longest) as u16;
}

fn wide<T: Copy + Into<u64>>(range: RangeInclusive<T>) -> RangeInclusive<u64> {
    (*range.start()).into()..=(*range.end()).into()
}

/// Lowers the amounts, if a flow exceeds its limit, to the most that it
/// allows. With amounts of 1 no flow exceeds it.
pub fn bring_within_limit(record: &mut Record, curves: &[Curve]) {
    let passes = |record: &Record| accept_record(record, curves) != Err(Ground::FlowLimit);
    if passes(record) {
        return;
    }
    let cash_fits = |cash: u64| {
        passes(&Record {
            repo_cash: cash,
            nominal: record.nominal.min(1),
            ..*record
        })
    };
    if record.is_repo() {
        record.repo_cash = largest(record.repo_cash, MAX_AMOUNT, cash_fits).max(1);
    }
    let nominal_fits = |nominal: u64| passes(&Record { nominal, ..*record });
    if record.has_security() {
        record.nominal = largest(record.nominal, MAX_AMOUNT, nominal_fits).max(1);
    }
}
