//! The text of the list program.

use crate::{accept, currency_name, report, Report};

/// What the list program prints for a book's bytes. The day is the book's own.
pub fn list(bytes: &[u8]) -> String {
    match accept(bytes, bytes.len()) {
        Ok(book) => lines(&report(&book)),
        Err(refusal) => format!("refused {} {}\n", refusal.ground.number(), refusal.block),
    }
}

fn lines(report: &Report) -> String {
    let mut text = format!("account {}\n", report.account);
    for (id, curve) in report.present_curves() {
        text += &format!(
            "curve {id} {} base {} loss {} scenario {} tolerance {}\n",
            currency_name(curve.currency),
            curve.base,
            curve.worst_loss,
            curve.scenario,
            curve.tolerance
        );
    }
    for (name, figures) in report.present_currencies() {
        text += &format!(
            "currency {name} initial {} variation {} total {}\n",
            figures.initial, figures.variation, figures.total
        );
    }
    text
}
