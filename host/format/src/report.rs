//! The report of a book's margin.

use crate::layout::layout;

pub const REPORT: u8 = 9;

/// Names of currencies 1, 2 and 3.
pub const CURRENCIES: [&str; 3] = ["TRY", "USD", "EUR"];

/// The name of a currency by its number, 1 to 3.
pub fn currency_name(currency: u32) -> &'static str {
    CURRENCIES[currency as usize - 1]
}

layout! {
    /// A curve's figures; currency 0 where there is no curve.
    CurveFigures of 32 {
        /// Present value of all flows on the curve.
        base: i64 = 0,
        /// The largest loss over the curve's scenarios.
        worst_loss: i64 = 8,
        /// The first scenario with that loss.
        scenario: u32 = 16,
        /// 1 TRY, 2 USD, 3 EUR.
        currency: u32 = 20,
        /// How far the base may be from the exact one.
        tolerance: u64 = 24,
    }
}

layout! {
    /// A currency's figures, all 0 where no curve has the currency.
    CurrencyFigures of 24 {
        /// Sum of the worst losses of its curves.
        initial: i64 = 0,
        /// Sum of the base values of its curves.
        variation: i64 = 8,
        /// Variation less initial.
        total: i64 = 16,
    }
}

layout! {
    /// All that a report holds. Money is in hundredths.
    Report of 512 {
        kind: u8 = 0,
        number: u16 = 2,
        account: u32 = 4,
        curves: [CurveFigures; 8] = 8,
        /// TRY, USD and EUR.
        currencies: [CurrencyFigures; 3] = 264,
        check: u32 = 508,
    }
}

impl Report {
    /// The ids and figures of the curves that the book has.
    pub fn present_curves(&self) -> impl Iterator<Item = (usize, &CurveFigures)> {
        (1..)
            .zip(&self.curves)
            .filter(|(_, curve)| curve.currency != 0)
    }

    /// The names and figures of the currencies that a curve has.
    pub fn present_currencies(&self) -> impl Iterator<Item = (&'static str, &CurrencyFigures)> {
        let present = |currency: u32| self.curves.iter().any(|c| c.currency == currency);
        let all = (1..).zip(&self.currencies);
        all.filter(move |(currency, _)| present(*currency))
            .map(|(currency, figures)| (currency_name(currency), figures))
    }
}
