//! The exact values of demand 3 to the nearest kuruş, by the power inequality
//! alone.

use crate::{largest, Big, Book, Bounds, Curve, Number, Valuation, ONE, YEAR};
use std::cell::OnceCell;

/// n^year × up^days ≤ halves^year × down^days, asked of n: whether n halves of
/// a kuruş are at most what the amount is worth.
struct Inequality {
    /// The amount in halves of a kuruş.
    halves: u64,
    year: u64,
    days: u64,
    up: u64,
    down: u64,
}

/// The parts of the inequality that n leaves alone.
struct Sides<N> {
    year: u64,
    growth: N,
    right: N,
}

impl Inequality {
    /// Both sides are powers of the greatest common divisor of 365 and the
    /// days, so its root is taken; the rate's fraction is reduced.
    fn new(amount: u64, rate: u64, days: u64) -> Self {
        let root = common_divisor(YEAR, days);
        let part = common_divisor(ONE + rate, ONE);
        Inequality {
            halves: 2 * amount,
            year: YEAR / root,
            days: days / root,
            up: (ONE + rate) / part,
            down: ONE / part,
        }
    }

    fn sides<N: Number>(&self) -> Sides<N> {
        let halves = N::from(self.halves).power(self.year);
        Sides {
            year: self.year,
            growth: N::from(self.up).power(self.days),
            right: halves.times(&N::from(self.down).power(self.days)),
        }
    }
}

impl<N: Number> Sides<N> {
    fn left(&self, halves: u64) -> N {
        N::from(halves).power(self.year).times(&self.growth)
    }
}

fn common_divisor(a: u64, b: u64) -> u64 {
    if b == 0 {
        a
    } else {
        common_divisor(b, a % b)
    }
}

/// The exact value of an amount without its sign, halves up: the largest V that
/// is 0 or keeps
/// (2V - 1)^365 × (10^6 + rate)^days ≤ (2 × amount)^365 × (10^6)^days.
/// The bounds decide where they can, whole numbers where they cannot.
pub fn exact_value(amount: u64, rate: u64, days: u64) -> u64 {
    if amount == 0 || rate == 0 || days == 0 {
        return amount;
    }
    let inequality = Inequality::new(amount, rate, days);
    let quick: Sides<Bounds> = inequality.sides();
    let slow: OnceCell<Sides<Big>> = OnceCell::new();
    let yearly = 1.0 + rate as f64 / ONE as f64;
    let guess = amount as f64 / yearly.powf(days as f64 / YEAR as f64);
    let at_most = |halves: u64| {
        let told = quick.left(halves).at_most(&quick.right);
        told.unwrap_or_else(|| {
            let slow = slow.get_or_init(|| inequality.sides());
            slow.left(halves) <= slow.right
        })
    };
    largest(amount, guess.round() as u64, |value| {
        value == 0 || at_most(2 * value - 1)
    })
}

/// The exact base and the exact losses of a curve.
pub fn exact_valuation(book: &Book, curve: &Curve) -> Valuation {
    Valuation::new(curve, &book.flows_on(curve), |flow, rate| {
        exact_value(flow.amount as u64, rate, flow.day)
    })
}
