//! Margins of repos with payments inside the term, worked by hand: base,
//! loss, tolerance and the exact figures.

#[path = "samples/flat_curve.rs"]
mod flat_curve;

use flat_curve::flat_curve;
use seddolki_model::{
    accept, assemble, exact_valuation, margin, Book, Date, Layout, Record, Report, BLOCK, COUPONS,
    FIRST_SIDE, SECOND_SIDE, SPECIFIED,
};

/// The day that the books are for.
const DAY: Date = Date::from_days(9_815);

/// Cash at rate 0 in every scenario; the security's payments at 100%, in
/// scenario 2 at 0.
fn book_of(trade: Record) -> Book {
    let curves = [flat_curve(1, 0, 0), flat_curve(2, 1_000_000, -1_000_000)];
    let bytes = assemble(7, DAY, &curves, &[trade]);
    accept(&bytes, bytes.len()).expect("the trade keeps the rules")
}

/// 5,000 at no interest from today to day 730, against a bond that pays
/// 1,000 × 10% = 100 on days 365, 730 and 1,095, with its nominal on the last.
fn repo(side: u8) -> Record {
    Record {
        kind: SPECIFIED,
        side,
        phase: 1,
        security_curve: 2,
        cash_curve: 1,
        security: COUPONS,
        value_day_2: 730,
        first_payment_day: 365,
        period: 365,
        payments: 3,
        term: 730,
        coupon: 100_000,
        nominal: 1_000,
        repo_cash: 5_000,
        ..Record::default()
    }
}

fn report_of(book: &Book) -> Report {
    let bytes = assemble(book.account, DAY, &book.curves, &book.trades);
    let mut space = [0; BLOCK];
    assert_eq!(margin(&bytes, bytes.len(), DAY, &mut space).number, 0);
    Report::decode(&space)
}

/// What the report shows of the security curve, and its exact base and
/// losses.
struct Due {
    base: i64,
    worst_loss: i64,
    scenario: u32,
    tolerance: u64,
    exact_losses: [i64; 3],
}

/// `cash` is the base of the cash curve. Its tolerance is ⌈5,000 × 2 × 2 /
/// 10^12⌉ for the second leg, and no scenario moves it.
fn assert_figures(trade: Record, cash: i64, due: Due) {
    let book = book_of(trade);
    let report = report_of(&book);
    let [of_cash, shown] = [report.curves[0], report.curves[1]];
    let found = (of_cash.base, of_cash.worst_loss, of_cash.tolerance);
    assert_eq!(found, (cash, 0, 1));
    assert_eq!((shown.base, shown.worst_loss), (due.base, due.worst_loss));
    assert_eq!(shown.scenario, due.scenario);
    assert_eq!(shown.tolerance, due.tolerance);
    let exact = exact_valuation(&book, &book.curves[1]);
    assert_eq!(
        (exact.base, exact.losses),
        (due.base, due.exact_losses.into())
    );
    let lira = report.currencies[0];
    let (initial, variation) = (due.worst_loss, cash + due.base);
    assert_eq!((lira.initial, lira.variation), (initial, variation));
    assert_eq!(lira.total, variation - initial);
}

/// 100 / 2 on day 365 and 100 / 4 on day 730 go out, 75 in all, and 200 at
/// rate 0: a loss of 200 - 75. Each payment adds ⌈100 × 2 × 1 / 10^12⌉ or
/// ⌈100 × 2 × 2 / 10^12⌉ to the tolerance. Day 1,095 is behind the term.
#[test]
fn payments_inside_the_term_are_in_base_loss_and_tolerance() {
    let member = Due {
        base: -75,
        worst_loss: 125,
        scenario: 2,
        tolerance: 2,
        exact_losses: [0, 0, 125],
    };
    assert_figures(repo(FIRST_SIDE), 0, member);
    let other = Due {
        base: 75,
        worst_loss: 0,
        scenario: 0,
        tolerance: 2,
        exact_losses: [0, 0, -125],
    };
    assert_figures(repo(SECOND_SIDE), 0, other);
}

/// The bond ends on day 730 with 1,100, of which a quarter is 275: 50 + 275
/// go out, and 1,200 at rate 0.
#[test]
fn a_nominal_inside_the_term_is_in_base_loss_and_tolerance() {
    let ending = |side| Record {
        payments: 2,
        ..repo(side)
    };
    let member = Due {
        base: -325,
        worst_loss: 875,
        scenario: 2,
        tolerance: 2,
        exact_losses: [0, 0, 875],
    };
    assert_figures(ending(FIRST_SIDE), 0, member);
    let other = Due {
        base: 325,
        worst_loss: 0,
        scenario: 0,
        tolerance: 2,
        exact_losses: [0, 0, -875],
    };
    assert_figures(ending(SECOND_SIDE), 0, other);
}

/// Of the three payments only 1,100 on day 1,095 is behind the term: an
/// eighth is 137.5, so 138, and 1,100 at rate 0. The tolerance is
/// ⌈1,100 × 2 × 3 / 10^12⌉; the second leg alone is left of the cash.
#[test]
fn payments_behind_the_term_are_in_base_loss_and_tolerance_of_a_settled_repo() {
    let settled = |side| Record {
        phase: 2,
        ..repo(side)
    };
    let member = Due {
        base: 138,
        worst_loss: 0,
        scenario: 0,
        tolerance: 1,
        exact_losses: [0, 0, -962],
    };
    assert_figures(settled(FIRST_SIDE), -5_000, member);
    let other = Due {
        base: -138,
        worst_loss: 962,
        scenario: 2,
        tolerance: 1,
        exact_losses: [0, 0, 962],
    };
    assert_figures(settled(SECOND_SIDE), 5_000, other);
}

/// No payment is left: the curve shows nothing and has no tolerance.
#[test]
fn a_bond_that_ends_before_it_returns_leaves_its_curve_empty() {
    let ended = Record {
        phase: 2,
        payments: 2,
        ..repo(FIRST_SIDE)
    };
    let empty = Due {
        base: 0,
        worst_loss: 0,
        scenario: 0,
        tolerance: 0,
        exact_losses: [0; 3],
    };
    assert_figures(ended, -5_000, empty);
}
