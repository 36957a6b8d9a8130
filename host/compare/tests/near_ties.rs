//! Books whose scenarios are hard to tell apart: the model values each of them.

use seddolki_books::{
    assemble, assert_near_exact, draw_near_ties, most_trades, HalfCase, NearTies, Tally,
};
use seddolki_compare::{assert_alike, books, is_whole, margin_case, report_of, Seeds};

/// Bounds the time of a margin.
const WORK: usize = 3_000;

/// The same where fewer scenarios will do.
const LESS_WORK: usize = 500;

#[test]
fn margins_are_the_same_where_losses_are_near_or_equal() {
    let seeds = Seeds::of_this_run();
    for (number, ties) in (0..books() / 10).zip(NearTies::ALL.into_iter().cycle()) {
        let mut draw = seeds.draw(number);
        let book = draw_near_ties(&mut draw, ties, WORK);
        let outcome = assert_alike(&margin_case(&mut draw, assemble(&book)), number);
        assert_eq!(outcome.answer.number, 0, "{ties:?}");
    }
}

#[test]
fn margins_with_halves_received_and_paid_are_the_same_and_keep_exactness() {
    let seeds = Seeds::of_this_run();
    let mut reached = Tally::default();
    for number in 0..books() / 10 {
        let mut draw = seeds.draw(number);
        let book = draw_near_ties(&mut draw, NearTies::Halves, LESS_WORK);
        let outcome = assert_alike(&margin_case(&mut draw, assemble(&book)), number);
        let report = report_of(&outcome);
        assert_near_exact(&book, &report);
        for (curve, shown) in book.curves.iter().zip(&report.curves) {
            let cases = HalfCase::of(curve, shown, &book.flows_on(curve));
            cases.into_iter().for_each(|case| reached.add(case));
        }
    }
    reached.assert_all(HalfCase::all(), is_whole().into());
}

/// What rounding gives to a flow, or takes from it, a book has a thousand times.
#[test]
fn margins_are_the_same_on_full_books_of_halves() {
    let seeds = Seeds::of_this_run();
    for number in 0..books() / 200 {
        let mut draw = seeds.draw(number);
        let mut book = draw_near_ties(&mut draw, NearTies::Halves, usize::MAX);
        let count = most_trades(&book.curves);
        book.trades = book.trades.into_iter().cycle().take(count).collect();
        let outcome = assert_alike(&margin_case(&mut draw, assemble(&book)), number);
        assert_eq!(outcome.answer.number, 0);
    }
}
