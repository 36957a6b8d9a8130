//! One present value.

use crate::ffi;
use seddolki_format::Refusal;

/// A present value, and how far from it the exact one, rounded alike, may be.
#[derive(Clone, Copy, Debug, PartialEq, Eq)]
pub struct PresentValue {
    /// In hundredths, rounded to the nearest, a half up.
    pub value: u64,
    /// In hundredths.
    pub tolerance: u64,
}

/// What an amount on a day is worth on day 0 at a yearly rate in millionths,
/// compounded yearly.
///
/// ```
/// use seddolki::{present_value, Ground};
///
/// let half = present_value(1_000, 1_000_000, 365)?;
/// assert_eq!(half.value, 500);
///
/// let half = present_value(1_001, 1_000_000, 365)?;
/// assert_eq!(half.value, 501);
///
/// let refusal = present_value(1_000, 1_000_000, 10_951).unwrap_err();
/// assert_eq!(refusal.ground, Ground::ValueRange);
/// # Ok::<(), seddolki::Refusal>(())
/// ```
///
/// # Errors
/// Ground 16 for an amount above 10^12, a rate above 1,000,000 or a day
/// above 10,950.
pub fn present_value(amount: u64, rate: u64, day: u64) -> Result<PresentValue, Refusal> {
    let mut tolerance = 0;
    let answer = ffi::present_value(amount, rate, day, &mut tolerance);
    Result::from(answer).map(|value| PresentValue { value, tolerance })
}
