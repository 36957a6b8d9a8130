//! The daily factor and the exact value against their definitions.

use seddolki_model::{
    daily, exact_value, largest, power, yearly, Big, Bounds, Number, ONE, UNIT, YEAR,
};

#[test]
fn daily_factor_is_the_largest() {
    for rate in (0..=1_000_000)
        .step_by(4_999)
        .chain([1, 999_999, 1_000_000])
    {
        let (q, year) = (daily(rate), yearly(rate));
        assert!(power(q, YEAR) <= year);
        assert!(q == UNIT || power(q + 1, YEAR) > year);
    }
    assert_eq!(daily(0), UNIT);
}

/// The definition word for word, by halving and in whole numbers: document
/// 01's value, rounded down, and one more if what is left is a half at least.
fn defined_value(amount: u64, rate: u64, days: u64) -> u64 {
    let growth = Big::from(ONE + rate).power(days);
    let scale = Big::from(ONE).power(days);
    let left = |value: u64| Big::from(value).power(YEAR).times(&growth);
    let right = |amount: u64| Big::from(amount).power(YEAR).times(&scale);
    let whole = right(amount);
    let down = largest(amount, amount / 2, |value| left(value) <= whole);
    let half_is_left = left(2 * down + 1) <= right(2 * amount);
    down + u64::from(half_is_left)
}

#[test]
fn exact_value_is_as_defined() {
    let amounts = [0, 1, 2, 3, 77, 999_999_999_999];
    let rates = [0, 1, 610_510, 1_000_000];
    for amount in amounts {
        for rate in rates {
            for days in [0, 1, 73, 364, 365, 730] {
                assert_eq!(
                    exact_value(amount, rate, days),
                    defined_value(amount, rate, days),
                    "{amount} at {rate} for {days} days"
                );
            }
        }
    }
}

#[test]
fn exact_value_of_the_last_day() {
    for (amount, rate) in [(1_000_000_000_000, 1_000_000), (987_654_321_098, 131_501)] {
        for days in [10_949, 10_950] {
            assert_eq!(
                exact_value(amount, rate, days),
                defined_value(amount, rate, days)
            );
        }
    }
}

/// Equality holds for (11/10)^5 in a fifth of a year's steps.
#[test]
fn exact_value_at_equality() {
    assert_eq!(
        exact_value(1_100_000_000_000 / 11, 610_510, 73),
        90_909_090_909
    );
    assert_eq!(exact_value(110_000_000_000, 610_510, 73), 100_000_000_000);
    assert_eq!(exact_value(109_999_999_999, 610_510, 73), 99_999_999_999);
    assert_eq!(exact_value(1 << 39, 1_000_000, 365 * 30), 1 << 9);
    assert_eq!(exact_value((1 << 39) - 1, 1_000_000, 365 * 30), 1 << 9);
}

/// A whole number and a half of 2^30, and one less, thirty years ahead.
#[test]
fn exact_value_at_a_half() {
    let half = 1 << 29;
    for whole in [0, 1, 2, 511, 512, 930] {
        let amount = (whole << 30) + half;
        assert_eq!(exact_value(amount, 1_000_000, 365 * 30), whole + 1);
        assert_eq!(exact_value(amount - 1, 1_000_000, 365 * 30), whole);
    }
}

/// One product by two ways: the bounds may leave it open which is larger.
#[test]
fn bounds_never_tell_equal_products_apart() {
    for i in 1..2_000_u64 {
        let [x, y, z] =
            [3, 5, 7].map(|by| Bounds::from(i.wrapping_mul(0x9e37_79b9_7f4a_7c15) / by));
        let (left, right) = (x.times(&y).times(&z), x.times(&y.times(&z)));
        assert_ne!(left.at_most(&right), Some(false));
        assert_ne!(right.at_most(&left), Some(false));
        let next = Bounds::from(i + 1).power(YEAR);
        assert_eq!(Bounds::from(i).power(YEAR).at_most(&next), Some(true));
        assert_eq!(next.at_most(&Bounds::from(i).power(YEAR)), Some(false));
    }
}

#[test]
fn largest_finds_the_limit_from_any_guess() {
    for limit in [0, 1, 2, 3, 10, 1_000] {
        for answer in 0..=limit.min(12) {
            for guess in [0, 1, 5, 11, 12, 13, 900, u64::MAX] {
                assert_eq!(largest(limit, guess, |n| n <= answer), answer);
            }
        }
    }
    assert_eq!(largest(UNIT, 7, |_| true), UNIT);
    assert_eq!(largest(UNIT, u64::MAX, |n| n == 0), 0);
}
