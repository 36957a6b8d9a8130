//! Times of the discount engine: a product in a chain, a factor at a rate not seen before, alone and with another, and bisection beside it.
use seddolki_bench::*;
use std::hint::black_box;

/// Nanoseconds for each of `n` pieces of work.
fn best(n: usize, work: impl FnMut() -> u64) -> f64 {
    best_time(work).as_nanos() as f64 / n as f64
}

fn main() {
    let rates: Vec<u64> = (0..1000).map(|i| 1 + i * 997).collect();
    let q = black_box(999_800_000_123);
    let product = best(365_000, || {
        (0..1000).fold(0, |z, _| z ^ chain(UNIT, black_box(q), 365))
    });
    let over = |days: u64| {
        best(rates.len(), || {
            rates.iter().fold(0, |z, &r| z ^ factor(r, days))
        })
    };
    let (half_year, last_day) = (over(182), over(10_950 - 1));
    let together = best(rates.len(), || {
        rates
            .chunks(2)
            .fold(0, |z, r| z ^ factors(r[0], 182, r[1], 183))
    });
    let halves = best(20, || {
        rates[..20].iter().fold(0, |z, &r| z ^ daily_by_halves(r))
    });
    println!("a product in a chain        {product:10.2} ns");
    for (what, time) in [
        ("a factor of 182 days       ", half_year),
        ("the same, two together     ", together),
        ("a factor of 10,949 days    ", last_day),
    ] {
        println!("{what} {time:10.0} ns = {:.0} products", time / product);
    }
    let factors = halves / half_year;
    println!("a day's factor by bisection {halves:10.0} ns = {factors:.1} factors of 182 days");
}
