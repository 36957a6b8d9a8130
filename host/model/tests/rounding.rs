//! Present and exact values to the nearest kuruş, halves up and before the
//! sign, worked by hand.

#[path = "samples/flat_curve.rs"]
mod flat_curve;
mod samples;

use flat_curve::flat_curve;
use samples::single_payment;
use seddolki_model::{
    accept, assemble, discount_factor, exact_valuation, exact_value, half_up, margin,
    present_value, preview, Answer, Curve, CurveFigures, Date, Layout, Record, Report, BLOCK,
    FIRST_SIDE, SECOND_SIDE,
};

/// The day that the books are for.
const DAY: Date = Date::from_days(9_815);

/// The most that an amount can be.
const MOST: u64 = 1_000_000_000_000;

/// The rate at which an amount halves in a year.
const HALVING: u64 = 1_000_000;

#[test]
fn halves_go_up() {
    assert_eq!(half_up(5, 10), 1);
    assert_eq!(half_up(4, 10), 0);
    assert_eq!(half_up(1, 3), 0);
    assert_eq!(half_up(2, 3), 1);
    assert_eq!(half_up(15, 10), 2);
    assert_eq!(half_up(25, 10), 3);
}

/// Present value, exact value and tolerance.
fn values(amount: u64, rate: u64, day: u64) -> (u64, u64, u64) {
    let mut tolerance = 0;
    let answer = present_value(amount, rate, day, &mut tolerance);
    assert_eq!(answer.number, 0);
    let exact = exact_value(amount, rate, day);
    (answer.value, exact, tolerance)
}

/// Both values are this one.
fn is_worth(amount: u64, rate: u64, day: u64, value: u64) {
    let (present, exact, _) = values(amount, rate, day);
    assert_eq!(
        (present, exact),
        (value, value),
        "{amount} at {rate} on day {day}"
    );
}

#[test]
fn a_half_goes_up() {
    // 0.5, 1.5, 2.5, 500.5 and 499,999,999,999.5
    for (amount, value) in [(1, 1), (3, 2), (5, 3), (1_001, 501), (MOST - 1, MOST / 2)] {
        is_worth(amount, HALVING, 365, value);
    }
    // a quarter of 2 and of 6, an eighth of 4 and of 12
    is_worth(2, HALVING, 730, 1);
    is_worth(6, HALVING, 730, 2);
    is_worth(4, HALVING, 1_095, 1);
    is_worth(12, HALVING, 1_095, 2);
    // 4 / 1.6 is 2.5, 32 / 1.6^2 is 12.5 and 16 / 1.28 is 12.5
    is_worth(4, 600_000, 365, 3);
    is_worth(32, 600_000, 730, 13);
    is_worth(16, 280_000, 365, 13);
}

#[test]
fn the_nearest_is_above_or_below() {
    // a quarter, three quarters, 1.25 and 1.75
    for (amount, value) in [(0, 0), (1, 0), (3, 1), (4, 1), (5, 1), (7, 2)] {
        is_worth(amount, HALVING, 730, value);
    }
    // 0.8, 1.6, 2.4 and 3.2
    for (amount, value) in [(1, 1), (2, 2), (3, 2), (4, 3)] {
        is_worth(amount, 250_000, 365, value);
    }
}

/// Those of source document 004: 39,286,605.01, 952,878,125.95 and
/// 999,630,466.61.
#[test]
fn worked_examples_to_the_kurus() {
    is_worth(39_300_000, 132_500, 1, 39_286_605);
    is_worth(953_846_200, 131_500, 3, 952_878_126);
    is_worth(1_000_307_400, 131_500, 2, 999_630_467);
}

/// Y and the products are rounded down, so that the two values differ.
#[test]
fn factors_stay_rounded_down() {
    // two thirds of 10^12 are 666,666,666,666.7
    assert_eq!(discount_factor(500_000, 365), 666_666_666_666);
    let two_thirds = (666_666_666_666, 666_666_666_667, 2);
    assert_eq!(values(MOST, 500_000, 365), two_thirds);
    // 10^12 / 2^20 is 953,674.3; 2^19 × 953,674 / 10^12 is 0.4999998
    assert_eq!(discount_factor(HALVING, 7_300), 953_674);
    assert_eq!(values(1 << 19, HALVING, 7_300), (0, 1, 1));
}

/// 10^12 / 2^30 is 931.3, and half of it 465.7; half of the factor is 465.5.
#[test]
fn on_the_last_day() {
    assert_eq!(discount_factor(HALVING, 10_950), 931);
    assert_eq!(values(MOST, HALVING, 10_950), (931, 931, 60));
    assert_eq!(values(MOST / 2, HALVING, 10_950), (466, 466, 30));
}

#[test]
fn an_amount_of_today_is_worth_itself() {
    for amount in [0, 1, 2, 77, 50_005, MOST - 1, MOST] {
        for rate in [0, 1, 250_000, HALVING] {
            assert_eq!(values(amount, rate, 0), (amount, amount, 0));
        }
        is_worth(amount, 0, 10_950, amount);
    }
}

/// At 100%, in scenario 2 at 0, in the other two at 100% as well.
fn curve() -> Curve {
    flat_curve(1, HALVING as u32, -1_000_000)
}

/// A nominal in a year against the same cash today.
fn outright(side: u8, nominal: u64) -> Record {
    Record {
        side,
        nominal,
        price_or_rate: 1_000_000,
        ..single_payment()
    }
}

fn first_curve(space: &[u8]) -> CurveFigures {
    Report::decode(space).curves[0]
}

/// The base, worst loss and scenario that margin shows of a book with these
/// trades. The exact base and worst loss are the same.
fn shown(trades: &[Record]) -> (i64, i64, u32) {
    let bytes = assemble(7, DAY, &[curve()], trades);
    let mut space = [0; BLOCK];
    assert_eq!(margin(&bytes, bytes.len(), DAY, &mut space).number, 0);
    let shown = first_curve(&space);
    let book = accept(&bytes, bytes.len()).expect("the book keeps the rules");
    let exact = exact_valuation(&book, &book.curves[0]);
    assert_eq!(
        (exact.base, exact.worst_loss()),
        (shown.base, shown.worst_loss)
    );
    (shown.base, shown.worst_loss, shown.scenario)
}

/// A half of 1 is 1 and of 3 is 2, received or paid. At rate 0 every trade is
/// worth nothing, so that the base is the loss of scenario 2.
#[test]
fn a_paid_half_is_a_received_one_with_its_sign() {
    assert_eq!(shown(&[outright(FIRST_SIDE, 1)]), (0, 0, 0));
    assert_eq!(shown(&[outright(SECOND_SIDE, 1)]), (0, 0, 0));
    assert_eq!(shown(&[outright(FIRST_SIDE, 3)]), (-1, 0, 0));
    assert_eq!(shown(&[outright(SECOND_SIDE, 3)]), (1, 1, 2));
}

#[test]
fn a_received_and_a_paid_half_cancel_out() {
    for nominal in [1, 3, 50_005, MOST - 1] {
        let both = [FIRST_SIDE, SECOND_SIDE].map(|side| outright(side, nominal));
        assert_eq!(shown(&both), (0, 0, 0));
    }
}

/// 1.5 in each time, so 2, where three times 1.5 would be 5 and not 6.
#[test]
fn flows_are_rounded_and_not_their_sum() {
    assert_eq!(shown(&[outright(FIRST_SIDE, 3); 3]), (6 - 9, 0, 0));
    assert_eq!(shown(&[outright(SECOND_SIDE, 3); 3]), (9 - 6, 3, 2));
}

/// 3 and 5 are sold, and 5 is bought on the phone: 3 and 5 in today and 5 out,
/// 2 and 3 out in a year and 3 in.
#[test]
fn a_preview_rounds_as_the_margin_does() {
    let sales = [3, 5].map(|nominal| outright(SECOND_SIDE, nominal));
    let purchase = outright(FIRST_SIDE, 5);
    let bytes = assemble(7, DAY, &[curve()], &sales);
    let mut space = [0; BLOCK];
    let answer = preview(&bytes, bytes.len(), DAY, &purchase.to_bytes(), &mut space);
    assert_eq!(answer, Answer::from(Ok(0)));
    let found = first_curve(&space);
    let found = (found.base, found.worst_loss, found.scenario);
    assert_eq!(found, (1, 1, 2));
    assert_eq!(shown(&[sales[0], sales[1], purchase]), found);
}

fn is_within_tolerance(amount: u64, rate: u64, day: u64) {
    let (present, exact, tolerance) = values(amount, rate, day);
    assert!(
        present.abs_diff(exact) <= tolerance,
        "{amount} at {rate} on day {day}: {present}, exact {exact}, tolerance {tolerance}"
    );
}

#[test]
fn corners_are_within_tolerance() {
    for amount in [0, 1, 2, 3, 77, MOST / 2, MOST - 1, MOST] {
        for rate in [0, 1, 2, 250_000, 999_999, HALVING] {
            for day in [0, 1, 2, 73, 364, 365, 366, 729, 730, 10_949, 10_950] {
                is_within_tolerance(amount, rate, day);
            }
        }
    }
}

/// Ten years of rounding down make 331,909,462,417.3 of 331,909,462,423.6, and
/// the tolerance is ⌈331,929,377,529 × 2 × 10 / 10^12⌉.
#[test]
fn a_value_as_far_off_as_its_tolerance() {
    let far = (331_909_462_417, 331_909_462_424, 7);
    assert_eq!(values(331_929_377_529, 6, 3_650), far);
}

/// Halves, and what lies next to them.
#[test]
fn small_amounts_are_within_tolerance() {
    for amount in 0..=128 {
        for rate in [1, 280_000, 600_000, 999_999, HALVING] {
            for day in [1, 364, 365, 366, 730, 1_095, 2_555] {
                is_within_tolerance(amount, rate, day);
            }
        }
    }
    for years in 1..=30 {
        let half = 1 << (years - 1);
        for amount in [half - 1, half, half + 1, 3 * half - 1, 3 * half] {
            is_within_tolerance(amount, HALVING, 365 * years);
        }
    }
}

/// Numbers without a pattern, the same in every run.
struct Numbers(u64);

impl Numbers {
    fn up_to(&mut self, limit: u64) -> u64 {
        self.0 = self.0.wrapping_add(0x9e37_79b9_7f4a_7c15);
        let mixed = (self.0 ^ self.0 >> 30).wrapping_mul(0xbf58_476d_1ce4_e5b9);
        let mixed = (mixed ^ mixed >> 27).wrapping_mul(0x94d0_49bb_1331_11eb);
        (mixed ^ mixed >> 31) % (limit + 1)
    }
}

#[test]
fn values_without_a_pattern_are_within_tolerance() {
    let mut numbers = Numbers(7);
    for _ in 0..20_000 {
        let size = numbers.up_to(12) as u32;
        let amount = numbers.up_to(10_u64.pow(size));
        let (rate, day) = (numbers.up_to(HALVING), numbers.up_to(10_950));
        is_within_tolerance(amount, rate, day);
        is_within_tolerance(amount, rate, day % 10);
        is_within_tolerance(MOST - amount, rate, day);
    }
}
