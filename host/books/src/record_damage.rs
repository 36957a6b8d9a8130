//! Records spoiled so that one ground of 8 to 12 answers.

use crate::{bring_within_limit, wrong_numbers, Draw, Spoiled};
use seddolki_model::limits::*;
use seddolki_model::{payment_counts, payments, signs_of, Curve, Ground, Record};

/// An accepted record spoiled for the ground, if this record can be.
pub fn damage_record(
    draw: &mut Draw,
    record: &Record,
    curves: &[Curve],
    ground: Ground,
) -> Option<Record> {
    let mut spoiled = Spoiled::new(*record);
    match ground {
        Ground::Form => combination(&mut spoiled, curves.len() as u8),
        Ground::Days => schedule(&mut spoiled),
        Ground::Amounts => amount(&mut spoiled),
        Ground::Currency => currency(&mut spoiled, curves),
        Ground::FlowLimit => flow_limit(&mut spoiled, curves),
        _ => {}
    }
    spoiled.draw(draw)
}

fn combination(spoiled: &mut Spoiled<Record>, curves: u8) {
    let ends = [0, 1, 2, 3, 4, u8::MAX];
    spoiled.set(&ends, |r, kind| r.kind = kind);
    spoiled.set(&ends, |r, side| r.side = side);
    spoiled.set(&ends, |r, phase| r.phase = phase);
    spoiled.list.retain(|r| signs_of(r).is_none());
    let whole = spoiled.whole;
    let securities = whole.securities();
    let others: Vec<u8> = ends
        .into_iter()
        .filter(|e| !securities.contains(e))
        .collect();
    spoiled.set(&others, |r, security| r.security = security);
    let no_curve = [0, curves + 1, u8::MAX];
    spoiled.set(&no_curve, |r, id| r.cash_curve = id);
    if whole.has_security() {
        spoiled.set(&no_curve, |r, id| r.security_curve = id);
    } else {
        spoiled.set(&[1, curves, u8::MAX], |r, id| r.security_curve = id);
    }
}

fn schedule(spoiled: &mut Spoiled<Record>) {
    let late = [MAX_DAY as u16 + 1, u16::MAX];
    let whole = spoiled.whole;
    if whole.is_repo() {
        spoiled.set_wrong(true, TERMS, |r, term| r.term = term as u16);
        if whole.first_leg_settled() {
            let after = [whole.term + 1, u16::MAX];
            spoiled.set(&after, |r, day| r.value_day_2 = day);
        } else {
            unsettled_schedule(spoiled, &late);
        }
    } else {
        spoiled.set(&late, |r, day| r.value_day_1 = day);
    }
    if whole.has_security() {
        let early = [0, whole.payments_after()];
        spoiled.set(&early, |r, day| r.first_payment_day = day);
        spoiled.set(&late, |r, day| r.first_payment_day = day);
    }
    if whole.has_coupons() {
        spoiled.set_wrong(true, PERIODS, |r, n| r.period = n as u16);
        spoiled.set_wrong(true, PAYMENTS, |r, n| r.payments = n as u16);
        spoiled.add(|r| r.first_payment_day = late[0] - r.payment_span() as u16);
    }
}

fn unsettled_schedule(spoiled: &mut Spoiled<Record>, late: &[u16]) {
    spoiled.add(|r| r.term += 1);
    spoiled.add(|r| r.term -= 1);
    spoiled.add(|r| r.value_day_1 = r.value_day_2);
    spoiled.add(|r| (r.value_day_1, r.value_day_2) = (r.value_day_2, r.value_day_1));
    spoiled.add(|r| {
        r.term = TERMS.end() + 1;
        r.value_day_2 = r.value_day_1 + r.term;
    });
    spoiled.set(late, |r, day| {
        r.value_day_2 = day;
        r.value_day_1 = day - r.term;
    });
}

fn amount(spoiled: &mut Spoiled<Record>) {
    let whole = spoiled.whole;
    let (repo, coupons, indexed) = (whole.is_repo(), whole.has_coupons(), whole.is_indexed());
    let prices = if repo {
        0..=MAX_RATE as u32
    } else {
        CLEAN_PRICES
    };
    let some_day = wrong_numbers(false, 0..=MAX_DAY);
    let indices = wrong_numbers(indexed, INDICES);
    spoiled.set(&[1, u16::MAX], |r, n| r.zero = n);
    spoiled.set_wrong(repo, AMOUNTS, |r, n| r.repo_cash = n);
    spoiled.set_wrong(true, prices, |r, n| r.price_or_rate = n as u32);
    spoiled.set_wrong(!repo, 0..=MAX_ACCRUED, |r, n| r.accrued = n as u32);
    if !repo {
        spoiled.set(&some_day, |r, n| r.value_day_2 = n as u16);
        spoiled.set_wrong(false, TERMS, |r, n| r.term = n as u16);
    }
    if whole.first_leg_settled() {
        spoiled.set(&some_day, |r, n| r.value_day_1 = n as u16);
    }
    spoiled.set_wrong(whole.has_security(), AMOUNTS, |r, n| r.nominal = n);
    if !whole.has_security() {
        spoiled.set(&some_day, |r, n| r.first_payment_day = n as u16);
    }
    spoiled.set_wrong(coupons, 0..=MAX_COUPON, |r, n| r.coupon = n as u32);
    if !coupons {
        spoiled.add(|r| r.period = 1);
        spoiled.add(|r| r.payments = 1);
    }
    spoiled.set(&indices, |r, n| r.settlement_index = n as u32);
    spoiled.set(&indices, |r, n| r.issue_index = n as u32);
}

fn currency(spoiled: &mut Spoiled<Record>, curves: &[Curve]) {
    let whole = spoiled.whole;
    let currency = curves[usize::from(whole.cash_curve) - 1].currency;
    let foreign = curves.iter().filter(|curve| curve.currency != currency);
    if whole.has_security() {
        let ids: Vec<u8> = foreign.map(|curve| curve.id).collect();
        spoiled.set(&ids, |r, id| r.security_curve = id);
    }
}

/// Far above the limit, and the least above it.
fn flow_limit(spoiled: &mut Spoiled<Record>, curves: &[Curve]) {
    let Some(signs) = signs_of(&spoiled.whole) else {
        return;
    };
    if signs.second_leg != 0 {
        let dear = |r: &mut Record| {
            r.repo_cash = MAX_AMOUNT;
            r.price_or_rate = MAX_RATE as u32;
        };
        spoiled.add(dear);
        spoiled.add(|r| {
            dear(r);
            bring_within_limit(r, curves);
            r.repo_cash += 1;
        });
    }
    let dear = |r: &mut Record| {
        r.nominal = MAX_AMOUNT;
        if r.has_coupons() {
            r.coupon = MAX_COUPON;
        }
        if r.is_indexed() {
            r.settlement_index = *INDICES.end();
            r.issue_index = *INDICES.start();
        }
        if !r.is_repo() {
            r.price_or_rate = *CLEAN_PRICES.end();
        }
    };
    if can_pay_too_much(&spoiled.whole) {
        spoiled.add(dear);
        spoiled.add(|r| {
            dear(r);
            bring_within_limit(r, curves);
            r.nominal += 1;
        });
    }
}

/// Whether a flow that the nominal makes can exceed the limit: the settlement
/// cash of an outright, a last payment with its coupon, or any indexed one.
fn can_pay_too_much(record: &Record) -> bool {
    let counts = |day| payment_counts(record, day);
    let any_counts = || payments(record).iter().any(|&(day, _)| counts(day));
    !record.is_repo()
        || record.has_coupons() && counts(record.last_payment_day())
        || record.is_indexed() && any_counts()
}
