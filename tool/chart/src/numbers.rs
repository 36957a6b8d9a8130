//! Amounts, and values as text.

use seddolki_format::text::decimal;

/// Hundredths as units of the currency.
pub fn units(hundredths: impl Into<i128>) -> f64 {
    hundredths.into() as f64 / 100.0
}

/// A value rounded to so many decimals.
pub fn rounded(value: f64, decimals: usize) -> String {
    let scaled = (value * 10_f64.powi(decimals as i32)).round();
    decimal(scaled as i128, decimals as u32)
}
