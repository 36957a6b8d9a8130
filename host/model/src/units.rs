//! The units that figures are counted in, and rounding to them.

/// Days of a year.
pub const YEAR: u64 = 365;

/// A rate, price or coupon of 1, in millionths.
pub const ONE: u64 = 1_000_000;

/// S, the discount factor of 1.
pub const UNIT: u64 = 1_000_000_000_000;

/// Nearest whole number, halves up.
pub fn half_up(numerator: u128, denominator: u128) -> u128 {
    (2 * numerator + denominator) / (2 * denominator)
}
