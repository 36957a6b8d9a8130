//! Safe calls of the inner functions that the crate `probe` exports, and how times are taken.

pub mod peer;
mod repos;
mod timing;
mod whole;

pub use self::{repos::*, timing::*, whole::*};

unsafe extern "C" {
    /// The product with `q`, `k` times, from `x`.
    #[link_name = "probe_chain"]
    pub safe fn chain(x: u64, q: u64, k: u64) -> u64;

    /// The factor of a rate and some days; of one day it is the day's factor itself.
    #[link_name = "probe_factor"]
    pub safe fn factor(rate: u64, days: u64) -> u64;

    /// The sum of two factors that are taken together.
    #[link_name = "probe_factors"]
    pub safe fn factors(rate: u64, days: u64, other_rate: u64, other_days: u64) -> u64;
}

/// One, in a factor.
pub const UNIT: u64 = 1_000_000_000_000;

/// The largest rate.
pub const LIMIT: u64 = 1_000_000;

/// The year's factor at a rate.
pub fn yearly(rate: u64) -> u64 {
    UNIT * LIMIT / (LIMIT + rate)
}

/// The product in 64 bits, as the engine takes it.
pub fn product(a: u64, b: u64) -> u64 {
    const TWOS: u64 = 4096;
    const FIVES: u64 = 244_140_625;
    let (a1, a0, b1, b0) = (a / TWOS, a % TWOS, b / FIVES, b % FIVES);
    a1 * b1 + (a1 * b0 + a0 * b / TWOS) / FIVES
}

/// The day's factor by bisection: what the engine's is compared with.
pub fn daily_by_halves(rate: u64) -> u64 {
    let y = yearly(rate);
    let (mut low, mut high) = (0, UNIT + 1);
    while low + 1 < high {
        let middle = (low + high) / 2;
        let mut power = UNIT;
        for _ in 0..365 {
            power = product(power, middle);
        }
        if power <= y {
            low = middle;
        } else {
            high = middle;
        }
    }
    low
}
