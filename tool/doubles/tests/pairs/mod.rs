//! Pairs of trades that are alike, as if one had been keyed twice, and trades
//! that are not. A book with the curves accepts every one of them.

#![allow(dead_code)]

use seddolki_books::{draw_record, Draw};
use seddolki_model::block::Curve;
use seddolki_model::flows::second_leg;
use seddolki_model::limits::MAX_AMOUNT;
use seddolki_model::record::{Record, FIRST_SIDE, SECOND_SIDE};
use seddolki_model::rules::accept_record;

/// Payments of a drawn security are kept few: no likeness asks for more.
const MOST_PAYMENTS: u64 = 12;

/// How often something is drawn before it is given up.
const TRIES: usize = 1_000;

/// A trade, and one that is alike.
#[derive(Clone, Copy, Debug)]
pub struct Pair {
    pub trade: Record,
    pub double: Record,
}

impl Pair {
    fn accepted(self, curves: &[Curve]) -> Option<Pair> {
        let accepts = |record: &Record| accept_record(record, curves).is_ok();
        (accepts(&self.trade) && accepts(&self.double)).then_some(self)
    }
}

/// A trade, byte for byte twice.
pub fn draw_same(draw: &mut Draw, curves: &[Curve]) -> Option<Pair> {
    let trade = draw_record(draw, curves, MOST_PAYMENTS);
    Some(Pair {
        trade,
        double: trade,
    })
}

/// A repo that begins today, and the same with its first leg settled. The
/// second is the first in its next phase, or another repo with the terms of
/// the first.
pub fn draw_second_leg(draw: &mut Draw, curves: &[Curve]) -> Option<Pair> {
    try_often(|| {
        let trade = begin_on(0, draw_repo(draw, curves, false)?);
        let settled = draw_repo(draw, curves, true)?;
        let next_phase = Record {
            phase: trade.phase + 1,
            ..trade
        };
        let double = if draw.once_in(2) {
            next_phase
        } else {
            with_terms_of(&trade, settled)
        };
        let pair = Pair { trade, double }.accepted(curves)?;
        pair.double.first_leg_settled().then_some(pair)
    })
}

/// A repo, and one of the other side that begins on its value day 2 with its
/// second leg as cash.
pub fn draw_second_leg_as_first(draw: &mut Draw, curves: &[Curve]) -> Option<Pair> {
    try_often(|| {
        let settled = draw.once_in(2);
        let trade = draw_repo(draw, curves, settled)?;
        let cash = second_leg(trade.repo_cash, trade.price_or_rate, trade.term);
        let begins = begin_on(trade.value_day_2, draw_repo(draw, curves, false)?);
        let double = Record {
            side: other_side(&trade),
            cash_curve: trade.cash_curve,
            repo_cash: cash.try_into().ok()?,
            ..begins
        };
        Pair { trade, double }.accepted(curves)
    })
}

/// A trade and its opposite side.
pub fn draw_opposite(draw: &mut Draw, curves: &[Curve]) -> Option<Pair> {
    try_often(|| {
        let trade = draw_record(draw, curves, MOST_PAYMENTS);
        let double = Record {
            side: other_side(&trade),
            ..trade
        };
        Pair { trade, double }.accepted(curves)
    })
}

/// A trade, and one that differs from it in the field alone; none where the
/// curves, or the other fields, do not allow it.
pub fn draw_one_field(draw: &mut Draw, curves: &[Curve], field: &Field) -> Option<Pair> {
    try_often(|| {
        let trade = draw_record(draw, curves, MOST_PAYMENTS);
        let double = draw_change(draw, &trade, field)?;
        Pair { trade, double }.accepted(curves)
    })
}

/// The record with the field changed and accepted, if that can be had.
pub fn draw_changed(
    draw: &mut Draw,
    record: &Record,
    field: &Field,
    curves: &[Curve],
) -> Option<Record> {
    try_often(|| {
        let changed = draw_change(draw, record, field)?;
        accept_record(&changed, curves).ok().map(|()| changed)
    })
}

/// So many trades, each different from all others.
pub fn draw_different(draw: &mut Draw, curves: &[Curve], count: usize) -> Vec<Record> {
    let mut trades: Vec<Record> = vec![];
    while trades.len() < count {
        let trade = draw_record(draw, curves, MOST_PAYMENTS);
        if trades.iter().all(|other| are_different(&trade, other)) {
            trades.push(trade);
        }
    }
    trades
}

/// Whether two trades are so different that nothing between them can be taken
/// for a trade keyed twice: they settle last on different days, their amounts
/// (cash of a repo, nominal of an outright) differ, and neither has the
/// other's second leg for its amount.
pub fn are_different(one: &Record, other: &Record) -> bool {
    let last_day = |r: &Record| {
        if r.is_repo() {
            r.value_day_2
        } else {
            r.value_day_1
        }
    };
    let amount = |r: &Record| if r.is_repo() { r.repo_cash } else { r.nominal };
    let amount_back = |r: &Record| second_leg(r.repo_cash, r.price_or_rate, r.term);
    last_day(one) != last_day(other)
        && amount(one) != amount(other)
        && u128::from(amount(one)) != amount_back(other)
        && u128::from(amount(other)) != amount_back(one)
}

/// A field of a record by its name.
pub struct Field {
    pub name: &'static str,
    get: fn(&Record) -> u64,
    set: fn(&mut Record, u64),
}

macro_rules! fields {
    ($($field:ident)*) => {
        [$(Field {
            name: stringify!($field),
            get: |record| record.$field.into(),
            set: |record, value| record.$field = value as _,
        }),*]
    };
}

/// All that a record uses.
pub const FIELDS: [Field; 19] = fields! {
    kind side phase security_curve cash_curve security
    value_day_1 value_day_2 first_payment_day period payments term
    coupon nominal repo_cash price_or_rate accrued settlement_index issue_index
};

/// The record with another value in the field: one more, one less, or any.
fn draw_change(draw: &mut Draw, record: &Record, field: &Field) -> Option<Record> {
    let value = (field.get)(record);
    let any = draw.edge(0..=MAX_AMOUNT);
    let mut changed = *record;
    (field.set)(
        &mut changed,
        draw.pick(&[value + 1, value.saturating_sub(1), any]),
    );
    (changed != *record).then_some(changed)
}

/// A repo whose first leg has settled or not, as asked.
fn draw_repo(draw: &mut Draw, curves: &[Curve], settled: bool) -> Option<Record> {
    try_often(|| {
        let record = draw_record(draw, curves, MOST_PAYMENTS);
        (record.is_repo() && record.first_leg_settled() == settled).then_some(record)
    })
}

fn begin_on(day: u16, repo: Record) -> Record {
    Record {
        value_day_1: day,
        value_day_2: day + repo.term,
        ..repo
    }
}

/// A repo with all that makes it another's second leg.
fn with_terms_of(trade: &Record, settled: Record) -> Record {
    let security_curve = if trade.has_security() {
        trade.security_curve
    } else {
        settled.security_curve
    };
    Record {
        side: trade.side,
        cash_curve: trade.cash_curve,
        security_curve,
        repo_cash: trade.repo_cash,
        price_or_rate: trade.price_or_rate,
        term: trade.term,
        value_day_2: trade.value_day_2,
        ..settled
    }
}

fn other_side(trade: &Record) -> u8 {
    FIRST_SIDE + SECOND_SIDE - trade.side
}

fn try_often<T>(mut attempt: impl FnMut() -> Option<T>) -> Option<T> {
    (0..TRIES).find_map(|_| attempt())
}
