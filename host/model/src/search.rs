//! Search for a largest or a smallest number.

/// The largest number up to `limit` that fits. 0 fits, and so does every
/// number below one that fits. The guess only says where to start. The
/// limit is below 2^62.
pub fn largest(limit: u64, guess: u64, fits: impl Fn(u64) -> bool) -> u64 {
    let mut low = guess.min(limit);
    let mut step = 1;
    while low > 0 && !fits(low) {
        low = low.saturating_sub(step);
        step *= 2;
    }
    let mut high = low + 1;
    step = 1;
    while high <= limit && fits(high) {
        low = high;
        high += step;
        step *= 2;
    }
    high = high.min(limit + 1);
    while high - low > 1 {
        let middle = low + (high - low) / 2;
        if fits(middle) {
            low = middle;
        } else {
            high = middle;
        }
    }
    low
}

/// The smallest number up to `limit` that fits. The limit fits, and so does
/// every number above one that fits.
pub fn smallest(limit: u64, fits: impl Fn(u64) -> bool) -> u64 {
    let (mut low, mut high) = (0, limit);
    while low < high {
        let middle = low + (high - low) / 2;
        if fits(middle) {
            high = middle;
        } else {
            low = middle + 1;
        }
    }
    low
}
