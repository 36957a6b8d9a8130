use seddolki_bench::*;

/// Document 01's factor in 128 bits.
fn factor_of(rate: u64, days: u64, daily: u64) -> u64 {
    let product = |a: u64, b: u64| (a as u128 * b as u128 / UNIT as u128) as u64;
    let power = (0..days % 365).fold(UNIT, |f, _| product(f, daily));
    (0..days / 365).fold(power, |f, _| product(f, yearly(rate)))
}

fn numbers(mut seed: u64) -> impl FnMut() -> u64 {
    move || {
        seed ^= seed << 13;
        seed ^= seed >> 7;
        seed ^= seed << 17;
        seed
    }
}

#[test]
fn the_day_s_factor_is_the_one_that_bisection_finds() {
    let mut next = numbers(7);
    for rate in [0, 1, LIMIT]
        .into_iter()
        .chain((0..500).map(|_| next() % (LIMIT + 1)))
    {
        assert_eq!(factor(rate, 1), daily_by_halves(rate), "rate {rate}");
    }
}

#[test]
fn factors_are_those_of_128_bits() {
    let mut next = numbers(11);
    for _ in 0..20_000 {
        let (rate, days) = (next() % (LIMIT + 1), next() % 10_951);
        assert_eq!(
            factor(rate, days),
            factor_of(rate, days, factor(rate, 1)),
            "rate {rate}, {days} days"
        );
    }
}

#[test]
fn factors_taken_together_are_those_taken_alone() {
    let mut next = numbers(17);
    for turn in 0..20_000 {
        let rate = if turn % 50 == 0 {
            0
        } else {
            next() % (LIMIT + 1)
        };
        let (days, other, later) = (next() % 10_951, next() % (LIMIT + 1), next() % 10_951);
        for (r, t, s, u) in [(rate, days, other, later), (other, later, rate, days)] {
            assert_eq!(
                factors(r, t, s, u),
                factor(r, t) + factor(s, u),
                "rate {r}, {t} days; rate {s}, {u} days"
            );
        }
    }
}

#[test]
fn products_are_those_of_128_bits() {
    let mut next = numbers(13);
    for _ in 0..1_000_000 {
        let (a, b) = (next() % (UNIT + 1), next() % (UNIT + 1));
        let exact = (a as u128 * b as u128 / UNIT as u128) as u64;
        assert_eq!(chain(a, b, 1), exact, "{a} by {b}");
        assert_eq!(product(a, b), exact, "{a} by {b}");
    }
}
