//! The dated cash flows of a trade.

use crate::{
    half_up, Record, COUPONS, FIRST_SIDE, INDEXED_COUPONS, ONE, OUTRIGHT, POOL, SECOND_SIDE,
    SINGLE_PAYMENT, SPECIFIED, YEAR,
};

const WITHHOLDING_PERCENT: u128 = 15;

/// A dated amount on a curve.
#[derive(Clone, Copy, Debug, PartialEq, Eq)]
pub struct CashFlow {
    /// Id of the curve that it stands on.
    pub curve: u8,
    /// From today, day 0.
    pub day: u64,
    /// Without sign.
    pub amount: u128,
    /// 1 in, -1 out.
    pub sign: i64,
}

/// Signs of a trade's flows: 1 in, -1 out, 0 none.
#[derive(Clone, Copy, Debug, PartialEq, Eq)]
pub struct Signs {
    /// Of settlement cash or a repo's cash.
    pub first_leg: i64,
    /// Of what a repo pays back.
    pub second_leg: i64,
    /// Of the security's payments, as far as they count.
    pub payments: i64,
}

const fn signs(first_leg: i64, second_leg: i64, payments: i64) -> Signs {
    Signs {
        first_leg,
        second_leg,
        payments,
    }
}

/// The table of kind, phase, side and signs. What it lacks is not allowed.
pub const TABLE: [(u8, u8, u8, Signs); 12] = [
    (OUTRIGHT, 0, FIRST_SIDE, signs(-1, 0, 1)),
    (OUTRIGHT, 0, SECOND_SIDE, signs(1, 0, -1)),
    (POOL, 1, FIRST_SIDE, signs(1, -1, 0)),
    (POOL, 1, SECOND_SIDE, signs(-1, 1, 0)),
    (POOL, 2, FIRST_SIDE, signs(1, -1, -1)),
    (POOL, 2, SECOND_SIDE, signs(-1, 1, 1)),
    (POOL, 3, FIRST_SIDE, signs(0, -1, 1)),
    (POOL, 3, SECOND_SIDE, signs(0, 0, 0)),
    (SPECIFIED, 1, FIRST_SIDE, signs(1, -1, -1)),
    (SPECIFIED, 1, SECOND_SIDE, signs(-1, 1, 1)),
    (SPECIFIED, 2, FIRST_SIDE, signs(0, -1, 1)),
    (SPECIFIED, 2, SECOND_SIDE, signs(0, 1, -1)),
];

/// The table's line for a trade.
pub fn signs_of(record: &Record) -> Option<Signs> {
    TABLE
        .iter()
        .find(|line| (line.0, line.1, line.2) == (record.kind, record.phase, record.side))
        .map(|line| line.3)
}

/// What an outright settles for: the price is the clean one with what has
/// accrued.
pub fn settlement_cash(nominal: u64, clean_price: u32, accrued: u32) -> u128 {
    let price = u128::from(clean_price) + u128::from(accrued);
    half_up(u128::from(nominal) * price, ONE.into())
}

/// Interest and withholding of a repo.
pub fn interest_and_withholding(cash: u64, rate: u32, term: u16) -> (u128, u128) {
    let yearly = u128::from(cash) * u128::from(rate);
    let interest = half_up(yearly * u128::from(term), (YEAR * ONE).into());
    (interest, half_up(interest * WITHHOLDING_PERCENT, 100))
}

/// What a repo pays back.
pub fn second_leg(cash: u64, rate: u32, term: u16) -> u128 {
    let (interest, withholding) = interest_and_withholding(cash, rate, term);
    u128::from(cash) + interest - withholding
}

/// Days and amounts of the security's payments. The record has passed
/// grounds 8 to 10.
pub fn payments(record: &Record) -> Vec<(u64, u128)> {
    match record.security {
        SINGLE_PAYMENT => vec![(record.first_payment_day.into(), record.nominal.into())],
        COUPONS | INDEXED_COUPONS => (0..record.payments)
            .map(|i| coupon_payment(record, i))
            .collect(),
        _ => vec![],
    }
}

fn coupon_payment(record: &Record, i: u16) -> (u64, u128) {
    let day = u64::from(record.first_payment_day) + u64::from(i) * u64::from(record.period);
    let nominal = u128::from(record.nominal);
    let mut amount = half_up(nominal * u128::from(record.coupon), ONE.into());
    if i + 1 == record.payments {
        amount += nominal;
    }
    if record.is_indexed() {
        let indexed = amount * u128::from(record.settlement_index);
        amount = half_up(indexed, record.issue_index.into());
    }
    (day, amount)
}

/// Whether a payment of the security on a day is a flow of the trade: of an
/// outright any, of a repo with both legs ahead one inside the term, of one
/// whose first leg has settled one behind it. The record has passed grounds 8
/// to 10.
pub fn payment_counts(record: &Record, day: u64) -> bool {
    let has_payments = signs_of(record).is_some_and(|signs| signs.payments != 0);
    let on_this_day = if !record.is_repo() {
        true
    } else if record.first_leg_settled() {
        day > record.value_day_2.into()
    } else {
        record.in_term(day)
    };
    has_payments && on_this_day
}

/// What a flow of a trade is.
#[derive(Clone, Copy, Debug, PartialEq, Eq)]
pub enum Leg {
    /// An outright's settlement cash or a repo's cash.
    First,
    /// What a repo pays back.
    Second,
    /// A payment of the security that counts.
    Payment,
}

/// The flows that the table gives a trade. The record has passed grounds 8
/// to 10.
pub fn cash_flows(record: &Record) -> Vec<CashFlow> {
    let flows = named_flows(record).into_iter();
    flows.map(|(_, flow)| flow).collect()
}

/// The same flows, each with what it is.
pub fn named_flows(record: &Record) -> Vec<(Leg, CashFlow)> {
    let Some(signs) = signs_of(record) else {
        return vec![];
    };
    let cash_flow = |sign, day: u16, amount| CashFlow {
        curve: record.cash_curve,
        day: day.into(),
        amount,
        sign,
    };
    let mut flows = vec![];
    if signs.first_leg != 0 {
        let flow = cash_flow(signs.first_leg, record.value_day_1, first_leg(record));
        flows.push((Leg::First, flow));
    }
    if signs.second_leg != 0 {
        let cash = second_leg(record.repo_cash, record.price_or_rate, record.term);
        let flow = cash_flow(signs.second_leg, record.value_day_2, cash);
        flows.push((Leg::Second, flow));
    }
    let payment = |(day, amount)| CashFlow {
        curve: record.security_curve,
        day,
        amount,
        sign: signs.payments,
    };
    let counted = payments(record).into_iter();
    let counted = counted.filter(|(day, _)| payment_counts(record, *day));
    flows.extend(counted.map(|counted| (Leg::Payment, payment(counted))));
    flows
}

fn first_leg(record: &Record) -> u128 {
    if record.is_repo() {
        record.repo_cash.into()
    } else {
        settlement_cash(record.nominal, record.price_or_rate, record.accrued)
    }
}
