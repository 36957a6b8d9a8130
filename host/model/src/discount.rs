//! Discount factors and present values.

use crate::{half_up, largest, MAX_RATE, ONE, UNIT, YEAR};
use std::collections::HashMap;
use std::sync::atomic::{AtomicU64, Ordering};

/// a × b / S rounded down.
pub fn product(a: u64, b: u64) -> u64 {
    (u128::from(a) * u128::from(b) / u128::from(UNIT)) as u64
}

/// From `start`, the product with `factor`, `times` times.
fn products(start: u64, factor: u64, times: u64) -> u64 {
    (0..times).fold(start, |result, _| product(result, factor))
}

/// The power of q by k.
pub fn power(q: u64, k: u64) -> u64 {
    products(UNIT, q, k)
}

/// Y, the discount factor of one year.
pub fn yearly(rate: u64) -> u64 {
    (u128::from(UNIT) * u128::from(ONE) / u128::from(ONE + rate)) as u64
}

/// q, the discount factor of one day: the largest up to S whose power by 365
/// is at most Y. The rate is at most 1,000,000.
pub fn daily(rate: u64) -> u64 {
    /// Those found before; 0 is not found yet.
    static KNOWN: [AtomicU64; MAX_RATE as usize + 1] =
        [const { AtomicU64::new(0) }; MAX_RATE as usize + 1];
    let place = &KNOWN[rate as usize];
    let known = place.load(Ordering::Relaxed);
    if known != 0 {
        return known;
    }
    let found = daily_root(yearly(rate));
    place.store(found, Ordering::Relaxed);
    found
}

fn daily_root(yearly: u64) -> u64 {
    let unit = UNIT as f64;
    let guess = unit * (yearly as f64 / unit).powf(1.0 / YEAR as f64);
    largest(UNIT, guess as u64, |q| power(q, YEAR) <= yearly)
}

/// The discount factor of a day at a rate.
pub fn discount_factor(rate: u64, day: u64) -> u64 {
    let days = power(daily(rate), day % YEAR);
    products(days, yearly(rate), day / YEAR)
}

/// Discount factors that are kept once found.
#[derive(Default)]
pub struct Factors(HashMap<(u64, u64), u64>);

impl Factors {
    /// The factor of a rate and a day.
    pub fn of(&mut self, rate: u64, day: u64) -> u64 {
        let place = self.0.entry((rate, day));
        *place.or_insert_with(|| discount_factor(rate, day))
    }
}

/// The present value of an amount without its sign: amount × factor / S
/// half-up.
pub fn present_value(amount: u128, factor: u64) -> u64 {
    half_up(amount * u128::from(factor), UNIT.into()) as u64
}

/// How far a present value may be from the exact one, rounded up.
pub fn tolerance(amount: u128, day: u64) -> u64 {
    let roundings = u128::from(day % YEAR + day / YEAR);
    (amount * 2 * roundings).div_ceil(u128::from(UNIT)) as u64
}
