//! Present values one by one, any and at a half.

use seddolki_books::{Call, Case, Draw, Rest, Tally};
use seddolki_compare::{assert_alike, calls, is_whole, Seeds};
use seddolki_model::{
    discount_factor, exact_value, product, Date, MAX_AMOUNT, MAX_DAY, MAX_RATE, YEAR,
};

/// The value that both give, and the tolerance.
fn values(draw: &mut Draw, amount: u64, rate: u64, day: u64, number: u64) -> (u64, u64) {
    let call = Call::PresentValue {
        amount,
        rate,
        day,
        tolerance: draw.number(),
    };
    let case = Case {
        lent: vec![],
        used: 0,
        day: Date::FIRST,
        call,
    };
    let outcome = assert_alike(&case, number);
    assert_eq!(outcome.answer.number, 0);
    let Call::PresentValue { tolerance, .. } = outcome.after.call else {
        unreachable!("a present value was asked for");
    };
    (outcome.answer.value, tolerance)
}

#[test]
fn present_values_and_tolerances_are_the_same() {
    let seeds = Seeds::of_this_run();
    for number in 0..calls() / 4 {
        let mut draw = seeds.draw(number);
        let (rate, day) = (draw.edge(0..=MAX_RATE), draw.edge(0..=MAX_DAY));
        let amount = draw.edge(0..=MAX_AMOUNT);
        values(&mut draw, amount, rate, day, number);
    }
}

#[test]
fn a_half_and_more_goes_up_and_less_goes_down_at_any_factor() {
    let seeds = Seeds::of_this_run();
    let mut reached = Tally::default();
    for number in 0..calls() / 4 {
        let mut draw = seeds.draw(number);
        let (rate, day) = (draw.edge(0..=MAX_RATE), draw.edge(0..=MAX_DAY));
        let factor = discount_factor(rate, day);
        for rest in Rest::ALL {
            let Some(amount) = rest.draw_amount(&mut draw, factor, MAX_AMOUNT) else {
                continue;
            };
            let (value, _) = values(&mut draw, amount, rate, day, number);
            let more = u64::from(rest >= Rest::Half);
            assert_eq!(value, product(amount, factor) + more, "case {number}");
            reached.add(rest);
        }
    }
    reached.assert_all(Rest::ALL, 1_000 * u64::from(is_whole()));
}

/// A rate, and how an amount grows by it in a year: from so many to so many.
const GROWTHS: [(u64, u64, u64); 3] = [(1_000_000, 1, 2), (600_000, 5, 8), (280_000, 25, 32)];

/// Whether an amount that comes to whole kuruş and a half in so many years has
/// its exact value. Where the factor was cut, it is worth less than the half.
fn is_exact_at_a_half(draw: &mut Draw, growth: (u64, u64, u64), years: u32) -> bool {
    let (rate, from, to) = growth;
    let (half, day) = (to.pow(years) / 2, YEAR * u64::from(years));
    let odd = 2 * draw.edge(0..=(MAX_AMOUNT / half - 1) / 2) + 1;
    let amount = odd * half;
    let asked = format!("{amount} at {rate} on day {day}");
    let exact = exact_value(amount, rate, day);
    assert_eq!(2 * exact - 1, odd * from.pow(years), "{asked}");
    let (value, tolerance) = values(draw, amount, rate, day, years.into());
    assert!(exact - value <= tolerance, "{asked}");
    let is_half = Rest::of(amount, discount_factor(rate, day)) == Some(Rest::Half);
    assert_eq!(exact == value, is_half, "{asked}");
    is_half
}

#[test]
fn values_whose_exact_ones_are_a_half_are_within_tolerance() {
    let mut draw = Seeds::of_this_run().draw(0);
    let mut reached = Tally::default();
    for growth in GROWTHS {
        let years = (1..=30).take_while(|&years| growth.2.pow(years) <= 2 * MAX_AMOUNT);
        for years in years.flat_map(|years| [years; 20]) {
            reached.add((growth.0, is_exact_at_a_half(&mut draw, growth, years)));
        }
    }
    let all = GROWTHS.map(|growth| [false, true].map(|is_exact| (growth.0, is_exact)));
    reached.assert_all(all.concat(), 40);
}
