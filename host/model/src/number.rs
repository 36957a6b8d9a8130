//! What exact numbers and their bounds have in common.

/// A positive number that can be multiplied.
pub trait Number: From<u64> {
    /// The product, or a bound of it.
    fn times(&self, other: &Self) -> Self;

    /// By squaring, the highest bit of the exponent first.
    fn power(&self, exponent: u64) -> Self {
        let mut result = Self::from(1);
        for bit in (0..u64::BITS - exponent.leading_zeros()).rev() {
            result = result.times(&result);
            if exponent >> bit & 1 == 1 {
                result = result.times(self);
            }
        }
        result
    }
}
