//! Sure bounds of large products, quick to find.

use crate::Number;

/// mantissa × 2^exponent, the mantissa's top bit set. The order of the
/// fields makes the derived order that of the numbers.
#[derive(Clone, Copy, Debug, PartialEq, Eq, PartialOrd, Ord)]
struct Scaled {
    exponent: i64,
    mantissa: u64,
}

impl Scaled {
    fn new(number: u64) -> Self {
        let shift = number.leading_zeros();
        Scaled {
            exponent: -i64::from(shift),
            mantissa: number << shift,
        }
    }

    /// The product rounded down, and whether that is exact.
    fn times(self, other: Self) -> (Self, bool) {
        let whole = u128::from(self.mantissa) * u128::from(other.mantissa);
        let shift = u64::BITS - whole.leading_zeros();
        let down = Scaled {
            exponent: self.exponent + other.exponent + i64::from(shift),
            mantissa: (whole >> shift) as u64,
        };
        (down, whole.trailing_zeros() >= shift)
    }

    /// The next number above.
    fn next(self) -> Self {
        match self.mantissa.checked_add(1) {
            Some(mantissa) => Scaled { mantissa, ..self },
            None => Scaled {
                exponent: self.exponent + 1,
                mantissa: 1 << 63,
            },
        }
    }
}

/// The number is between the two, both included.
#[derive(Clone, Copy, Debug)]
pub struct Bounds {
    low: Scaled,
    high: Scaled,
}

impl Bounds {
    /// Whether this is at most the other, if the bounds tell.
    pub fn at_most(&self, other: &Bounds) -> Option<bool> {
        if self.high <= other.low {
            Some(true)
        } else if self.low > other.high {
            Some(false)
        } else {
            None
        }
    }
}

impl From<u64> for Bounds {
    fn from(number: u64) -> Self {
        let (low, high) = (Scaled::new(number), Scaled::new(number));
        Bounds { low, high }
    }
}

impl Number for Bounds {
    fn times(&self, other: &Bounds) -> Bounds {
        let (low, _) = self.low.times(other.low);
        let (down, exact) = self.high.times(other.high);
        let high = if exact { down } else { down.next() };
        Bounds { low, high }
    }
}
