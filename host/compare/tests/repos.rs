//! Repos whose securities pay inside the term, at its ends and behind it:
//! the calls that meet one, and demand 3 on books of them.

use seddolki_books::{
    assemble, assert_near_exact, draw_repo, draw_repo_book, undiscounted_book, Call, Case, Draw,
    Engine, RepoCase, Tally,
};
use seddolki_compare::{assert_alike, calls, is_whole, margin_case, report_of, whole_case, Seeds};
use seddolki_model::{
    Book, Ground, Layout, Record, BLOCK, COUPONS, FIRST_SIDE, POOL, SECOND_SIDE, SPECIFIED,
};

/// Bounds the time of a margin.
const WORK: usize = 300;

/// A repo new to a book, and in it.
fn calls_with(draw: &mut Draw, book: &Book, repo: &Record) -> [Case; 4] {
    let mut lent = assemble(book);
    let used = lent.len();
    lent.extend(draw.bytes(BLOCK));
    let record = repo.to_bytes();
    let report = draw.bytes(BLOCK);
    let new = |call| Case {
        lent: lent.clone(),
        used,
        day: book.valuation_day,
        call,
    };
    let mut book = book.clone();
    book.trades.push(*repo);
    let bytes = assemble(&book);
    [
        new(Call::Append { record }),
        new(Call::Preview { record, report }),
        whole_case(bytes.clone(), Call::Check {}),
        margin_case(draw, bytes),
    ]
}

/// Compares the calls; whether the repo is taken.
fn assert_calls_alike(draw: &mut Draw, book: &Book, repo: &Record, number: u64) -> bool {
    let mut taken = true;
    for call in calls_with(draw, book, repo) {
        let answered = assert_alike(&call, number).answer.number;
        for case in RepoCase::of(repo) {
            let due = case.ground().map_or(0, Ground::number);
            let name = call.call.name();
            assert_eq!(answered, due, "case {number}: {name} of {case:?}");
        }
        taken &= answered == 0;
    }
    taken
}

#[test]
fn repos_are_the_same_to_append_preview_check_and_margin_and_reach_every_case() {
    let seeds = Seeds::of_this_run();
    let mut reached = Tally::default();
    for number in 0..calls() / 4 {
        let mut draw = seeds.draw(number);
        let book = draw_repo_book(&mut draw, WORK);
        let repo = draw_repo(&mut draw, &book.curves);
        let taken = assert_calls_alike(&mut draw, &book, &repo, number);
        let others = book.trades.iter().filter(|_| taken);
        let met = others.chain([&repo]).flat_map(RepoCase::of);
        met.for_each(|case| reached.add(case));
    }
    reached.assert_all(RepoCase::all(), is_whole().into());
}

#[test]
fn reports_of_books_of_repos_keep_exactness_and_reach_every_case() {
    let seeds = Seeds::of_this_run();
    let mut reached = Tally::default();
    for number in 0..calls() / 8 {
        println!("book {number}");
        let mut draw = seeds.draw(number);
        let book = draw_repo_book(&mut draw, WORK);
        let outcome = margin_case(&mut draw, assemble(&book)).run(Engine::Proved);
        assert_near_exact(&book, &report_of(&outcome));
        let cases = book.trades.iter().flat_map(RepoCase::of);
        cases.for_each(|case| reached.add(case));
    }
    let accepted = RepoCase::all().filter(|case| case.ground().is_none());
    reached.assert_all(accepted, is_whole().into());
}

/// 5,000 at no interest, back on day 730, against a bond that pays 1,000 × 10%
/// on days 365, 730 and so on, with its nominal on the last.
fn repo(side: u8, phase: u8, payments: u16) -> Record {
    Record {
        kind: SPECIFIED,
        side,
        phase,
        security_curve: 1,
        cash_curve: 1,
        security: COUPONS,
        value_day_2: 730,
        first_payment_day: 365,
        period: 365,
        payments,
        term: 730,
        coupon: 100_000,
        nominal: 1_000,
        repo_cash: 5_000,
        ..Record::default()
    }
}

/// Base, worst loss, scenario and tolerance that both give for one trade at
/// rate 0, in scenario 2 at 100%.
fn figures(trade: Record) -> (i64, i64, u32, u64) {
    let book = Book {
        trades: vec![trade],
        ..undiscounted_book()
    };
    let case = margin_case(&mut Draw::new(1), assemble(&book));
    let curve = report_of(&assert_alike(&case, 0)).curves[0];
    (
        curve.base,
        curve.worst_loss,
        curve.scenario,
        curve.tolerance,
    )
}

#[test]
fn figures_of_repos_are_those_worked_out_by_hand() {
    for (payments, phase, member, other) in [
        // 5,000 in, 5,000 out and 100 twice; stressed 5,000 - 1,250 - 50 - 25
        (3, 1, (-200, 0, 0, 3), (200, 200 + 3_675, 2, 3)),
        // the nominal falls on day 730: stressed 5,000 - 1,250 - 50 - 275
        (2, 1, (-1_200, 0, 0, 3), (1_200, 1_200 + 3_425, 2, 3)),
        // 5,000 out, 1,100 in on day 1,095; stressed 1,250 and 137.5, so 138
        (3, 2, (-3_900, 0, 0, 2), (3_900, 3_900 - 1_112, 2, 2)),
        // nothing is paid after day 730
        (2, 2, (-5_000, 0, 0, 1), (5_000, 5_000 - 1_250, 2, 1)),
    ] {
        assert_eq!(figures(repo(FIRST_SIDE, phase, payments)), member);
        assert_eq!(figures(repo(SECOND_SIDE, phase, payments)), other);
        let pool = |side| Record {
            kind: POOL,
            phase: phase + 1,
            ..repo(side, phase, payments)
        };
        assert_eq!(figures(pool(FIRST_SIDE)), member);
        let other = if phase == 2 { (0, 0, 0, 0) } else { other };
        assert_eq!(figures(pool(SECOND_SIDE)), other);
    }
}
