//! Flows of each kind of trade, worked by hand.

use seddolki_model::{
    cash_flows, CashFlow, Record, COUPONS, FIRST_SIDE, INDEXED_COUPONS, OUTRIGHT, POOL,
    SECOND_SIDE, SINGLE_PAYMENT, SPECIFIED,
};

const SECURITY_CURVE: u8 = 2;
const CASH_CURVE: u8 = 5;

fn cash(day: u64, signed: i64) -> CashFlow {
    flow(CASH_CURVE, day, signed)
}

fn payment(day: u64, signed: i64) -> CashFlow {
    flow(SECURITY_CURVE, day, signed)
}

fn flow(curve: u8, day: u64, signed: i64) -> CashFlow {
    CashFlow {
        curve,
        day,
        amount: signed.unsigned_abs().into(),
        sign: signed.signum(),
    }
}

fn outright(side: u8) -> Record {
    Record {
        kind: OUTRIGHT,
        side,
        security_curve: SECURITY_CURVE,
        cash_curve: CASH_CURVE,
        security: SINGLE_PAYMENT,
        value_day_1: 2,
        first_payment_day: 10,
        nominal: 1_000,
        price_or_rate: 990_000,
        accrued: 10_500,
        ..Record::default()
    }
}

fn repo(kind: u8, phase: u8, side: u8) -> Record {
    let settled = matches!((kind, phase), (POOL, 3) | (SPECIFIED, 2));
    Record {
        kind,
        phase,
        price_or_rate: 132_000,
        accrued: 0,
        repo_cash: 1_000_000_000,
        term: 1,
        value_day_1: if settled { 0 } else { 3 },
        value_day_2: if settled { 1 } else { 4 },
        ..outright(side)
    }
}

#[test]
fn outright_settles_on_the_dirty_price() {
    let buyer = cash_flows(&outright(FIRST_SIDE));
    assert_eq!(buyer, [cash(2, -1_001), payment(10, 1_000)]);
    let seller = cash_flows(&outright(SECOND_SIDE));
    assert_eq!(seller, [cash(2, 1_001), payment(10, -1_000)]);
}

fn with_coupons(security: u8) -> Record {
    Record {
        security,
        period: 5,
        payments: 3,
        coupon: 25_500,
        ..outright(FIRST_SIDE)
    }
}

#[test]
fn the_nominal_is_paid_with_the_last_coupon() {
    let flows = cash_flows(&with_coupons(COUPONS));
    let coupons = [payment(10, 26), payment(15, 26), payment(20, 1_026)];
    assert_eq!(flows[1..], coupons);
}

/// 26 × 3 / 2 is 39, where 25.5 × 3 / 2 would be 38.
#[test]
fn an_index_moves_the_payment_already_rounded() {
    let flows = cash_flows(&Record {
        settlement_index: 300,
        issue_index: 200,
        ..with_coupons(INDEXED_COUPONS)
    });
    let coupons = [payment(10, 39), payment(15, 39), payment(20, 1_539)];
    assert_eq!(flows[0], cash(2, -1_001));
    assert_eq!(flows[1..], coupons);
}

#[test]
fn a_repo_ahead_has_its_two_legs() {
    for (kind, phase) in [(POOL, 1), (POOL, 2), (SPECIFIED, 1)] {
        assert_eq!(
            cash_flows(&repo(kind, phase, FIRST_SIDE)),
            [cash(3, 1_000_000_000), cash(4, -1_000_307_397)]
        );
        assert_eq!(
            cash_flows(&repo(kind, phase, SECOND_SIDE)),
            [cash(3, -1_000_000_000), cash(4, 1_000_307_397)]
        );
    }
}

#[test]
fn a_repo_settled_has_its_second_leg_and_payments() {
    for (kind, phase) in [(POOL, 3), (SPECIFIED, 2)] {
        assert_eq!(
            cash_flows(&repo(kind, phase, FIRST_SIDE)),
            [cash(1, -1_000_307_397), payment(10, 1_000)]
        );
    }
    assert_eq!(
        cash_flows(&repo(SPECIFIED, 2, SECOND_SIDE)),
        [cash(1, 1_000_307_397), payment(10, -1_000)]
    );
    assert_eq!(cash_flows(&repo(POOL, 3, SECOND_SIDE)), []);
}
