//! The figures of a curve and of a currency, and the report.

use crate::discount::present_value;
use crate::{
    tolerance, Book, CashFlow, CurrencyFigures, Curve, CurveFigures, Factors, Report, Valuation,
    REPORT,
};

/// The base and the losses of a curve, by its flows' present values.
pub fn valuation(curve: &Curve, flows: &[CashFlow]) -> Valuation {
    let mut factors = Factors::default();
    Valuation::new(curve, flows, |flow, rate| {
        present_value(flow.amount, factors.of(rate, flow.day))
    })
}

/// What the report holds of a curve.
pub fn curve_figures(book: &Book, curve: &Curve) -> CurveFigures {
    let flows = book.flows_on(curve);
    let valuation = valuation(curve, &flows);
    CurveFigures {
        base: valuation.base,
        worst_loss: valuation.worst_loss(),
        scenario: valuation.worst_scenario() as u32,
        currency: curve.currency.into(),
        tolerance: flows
            .iter()
            .map(|flow| tolerance(flow.amount, flow.day))
            .sum(),
    }
}

/// The sums over the curves of one currency.
pub fn currency_figures(curves: &[CurveFigures], currency: u32) -> CurrencyFigures {
    let own = || curves.iter().filter(|curve| curve.currency == currency);
    let initial: i64 = own().map(|curve| curve.worst_loss).sum();
    let variation: i64 = own().map(|curve| curve.base).sum();
    CurrencyFigures {
        initial,
        variation,
        total: variation - initial,
    }
}

/// The report, its check still to be written.
pub fn report(book: &Book) -> Report {
    let mut report = Report {
        kind: REPORT,
        account: book.account,
        ..Report::default()
    };
    for (place, curve) in report.curves.iter_mut().zip(&book.curves) {
        *place = curve_figures(book, curve);
    }
    for (place, currency) in report.currencies.iter_mut().zip(1..) {
        *place = currency_figures(&report.curves, currency);
    }
    report
}
