//! The checked figures of document 01.

use seddolki_model::{
    coefficients, interest_and_withholding, present_value, rate_on, second_leg, Answer, Node,
};

fn value(amount: u64, rate: u64, day: u64) -> u64 {
    let answer = present_value(amount, rate, day, &mut 0);
    assert_eq!(answer.number, 0);
    answer.value
}

#[test]
fn present_values() {
    assert_eq!(value(1_000, 1_000_000, 365), 500);
    assert_eq!(value(1_000, 1_000_000, 730), 250);
    assert_eq!(value(1_000_000_000_000, 1_000_000, 10_950), 931);
    assert_eq!(value(77, 250_000, 0), 77);
}

#[test]
fn a_day_too_far_is_refused() {
    let mut tolerance = 5;
    let answer = present_value(1_000_000_000_000, 1_000_000, 10_951, &mut tolerance);
    let refused = Answer {
        number: 16,
        value: 0,
    };
    assert_eq!((answer, tolerance), (refused, 0));
}

#[test]
fn rates_between_nodes() {
    let node = |day, rate| Node {
        day,
        rate,
        ..Node::default()
    };
    let nodes = [node(10, 100_007), node(20, 100_000)];
    assert_eq!(rate_on(&nodes, 5), 100_007);
    assert_eq!(rate_on(&nodes, 13), 100_005);
    assert_eq!(rate_on(&nodes, 25), 100_000);
}

#[test]
fn coefficients_of_a_component() {
    assert_eq!(coefficients(3, 100), [-100, -66, -33, 0, 33, 66, 100]);
    assert_eq!(coefficients(0, 100), [0]);
}

#[test]
fn repo_second_leg() {
    let (cash, rate, term) = (1_000_000_000, 132_000, 1);
    assert_eq!(
        interest_and_withholding(cash, rate, term),
        (361_644, 54_247)
    );
    assert_eq!(second_leg(cash, rate, term), 1_000_307_397);
}

/// Source document 004, to the nearest lira.
#[test]
fn worked_examples() {
    let lira = |amount: u64, rate, day| (value(amount * 100, rate, day) + 50) / 100;
    assert_eq!(lira(393_000, 132_500, 1), 392_866);
    assert_eq!(lira(9_538_462, 131_500, 3), 9_528_781);
    assert_eq!(lira(10_003_074, 131_500, 2), 9_996_305);
}

#[test]
fn tolerances() {
    let tolerance = |amount, day| {
        let mut tolerance = 9;
        assert_eq!(present_value(amount, 1, day, &mut tolerance).number, 0);
        tolerance
    };
    assert_eq!(tolerance(100_000, 365), 1);
    assert_eq!(tolerance(100_000, 0), 0);
    assert_eq!(tolerance(0, 400), 0);
    assert_eq!(tolerance(1_000_000_000_000, 364), 728);
    assert_eq!(tolerance(1_000_000_000_000, 10_949), 2 * (364 + 29));
    assert_eq!(tolerance(500_000_000_001, 1), 2);
}

#[test]
fn requests_out_of_limits() {
    let number = |amount, rate, day| present_value(amount, rate, day, &mut 0).number;
    assert_eq!(number(1_000_000_000_000, 1_000_000, 10_950), 0);
    assert_eq!(number(0, 0, 0), 0);
    assert_eq!(number(1_000_000_000_001, 0, 0), 16);
    assert_eq!(number(0, 1_000_001, 0), 16);
    assert_eq!(number(0, 0, 10_951), 16);
    assert_eq!(number(u64::MAX, u64::MAX, u64::MAX), 16);
}
