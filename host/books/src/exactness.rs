//! Demand 3: how far a report may be from the exact figures of its book.

use seddolki_model::{exact_valuation, Book, CurveFigures, Report, Valuation};

/// Panics unless a book's report keeps demand 3.
pub fn assert_near_exact(book: &Book, report: &Report) {
    let exact: Vec<Valuation> = book
        .curves
        .iter()
        .map(|curve| exact_valuation(book, curve))
        .collect();
    for (shown, exact) in report.curves.iter().zip(&exact) {
        assert_curve(shown, exact);
    }
    for (currency, figures) in (1..).zip(&report.currencies) {
        let own = || {
            let pairs = report.curves.iter().zip(&exact);
            pairs.filter(move |(shown, _)| shown.currency == currency)
        };
        let losses: i64 = own().map(|(_, exact)| exact.worst_loss()).sum();
        let tolerances: i64 = own().map(|(shown, _)| shown.tolerance as i64).sum();
        let gap = (figures.initial - losses).abs();
        assert!(gap <= 2 * tolerances, "initial of currency {currency}");
    }
}

/// One curve's share; `shown` is what the report holds.
fn assert_curve(shown: &CurveFigures, exact: &Valuation) {
    let tolerance = shown.tolerance as i64;
    let base_gap = (shown.base - exact.base).abs();
    assert!(base_gap <= tolerance, "base {shown:?}");
    let worst = exact.worst_loss();
    let loss_gap = (shown.worst_loss - worst).abs();
    assert!(loss_gap <= 2 * tolerance, "worst loss {shown:?}");
    let of_shown = exact.losses[shown.scenario as usize];
    assert!(worst <= of_shown + 4 * tolerance, "scenario {shown:?}");
}
