//! Repos with a security drawn at random, whole or refused for what the
//! security pays.

use crate::{draw_book_of, draw_curves, draw_record, hold_to_work, Draw};
use seddolki_model::{
    accept_record, largest, payments, smallest, Book, Curve, Record, MAX_AMOUNT, PAYMENTS,
};

/// So few that one more has room.
const MOST_REPOS: u64 = 16;

/// An accepted book of a few repos with a security. `work` is as in
/// `draw_book`.
pub fn draw_repo_book(draw: &mut Draw, work: usize) -> Book {
    let curves = draw_curves(draw);
    let count = draw.within(0..=MOST_REPOS) as usize;
    let mut trades = vec![];
    while trades.len() < count {
        let repo = draw_repo(draw, &curves);
        if accept_record(&repo, &curves).is_ok() {
            trades.push(repo);
        }
    }
    let mut book = draw_book_of(draw, curves, trades);
    hold_to_work(&mut book, work);
    book
}

/// A repo with a security. A book with these curves accepts it, unless its
/// first payment falls too early or its last one is a flow above the limit.
pub fn draw_repo(draw: &mut Draw, curves: &[Curve]) -> Record {
    let most_payments = draw.pick(&[1, 12, (*PAYMENTS.end()).into()]);
    let mut repo = loop {
        let record = draw_record(draw, curves, most_payments);
        if record.is_repo() && record.has_security() {
            break record;
        }
    };
    match draw.within(0..=7) {
        0 => pay_too_early(draw, &mut repo),
        1..=4 if repo.has_coupons() => end_above_limit(draw, &mut repo),
        _ => {}
    }
    repo
}

fn pay_too_early(draw: &mut Draw, repo: &mut Record) {
    let latest = repo.payments_after();
    let day = draw.within(0..=latest.into()) as u16;
    repo.first_payment_day = draw.pick(&[0, latest, latest, day]);
}

/// Makes the last payment, and it alone, exceed what a flow may be, by as
/// little or as much as can be; whether it is a flow is for its day to say.
fn end_above_limit(draw: &mut Draw, repo: &mut Record) {
    repo.coupon = repo.coupon.max(1);
    if repo.settlement_index < repo.issue_index {
        (repo.settlement_index, repo.issue_index) = (repo.issue_index, repo.settlement_index);
    }
    let whole = *repo;
    let first_of = |payments_left: u16, nominal: u64| {
        let rest = Record {
            payments: payments_left,
            nominal,
            ..whole
        };
        payments(&rest)[0].1
    };
    let limit = u128::from(MAX_AMOUNT);
    let least = smallest(MAX_AMOUNT, |nominal| first_of(1, nominal) > limit);
    let most = match whole.payments {
        1 => MAX_AMOUNT,
        _ => largest(MAX_AMOUNT, least, |nominal| first_of(2, nominal) <= limit),
    };
    repo.nominal = draw.edge(least..=most);
}
