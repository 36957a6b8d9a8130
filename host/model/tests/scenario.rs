//! Scenarios, stressed nodes and the worst loss, worked by hand.

use seddolki_model::{
    coefficients, rate_on, scenarios, stressed_nodes, Curve, Node, Scenario, Valuation,
};

fn node(day: u16, rate: u32, components: [i32; 3]) -> Node {
    Node {
        day,
        rate,
        components,
    }
}

fn stressed_rate(rate: u32, components: [i32; 3], scenario: Scenario) -> u32 {
    stressed_nodes(&[node(1, rate, components)], &scenario)[0].rate
}

#[test]
fn the_first_component_is_slowest() {
    let curve = Curve {
        steps: [1, 0, 1],
        ranges: [100, 50, 31],
        ..Curve::default()
    };
    let list: Vec<Scenario> = [-100, 0, 100]
        .into_iter()
        .flat_map(|first| [[first, 0, -31], [first, 0, 0], [first, 0, 31]])
        .collect();
    assert_eq!(scenarios(&curve), list);
}

#[test]
fn coefficients_are_cut_towards_zero() {
    assert_eq!(coefficients(2, 101), [-101, -50, 0, 50, 101]);
    assert_eq!(coefficients(3, 1), [-1, 0, 0, 0, 0, 0, 1]);
}

#[test]
fn the_sum_is_cut_once_towards_zero() {
    assert_eq!(stressed_rate(100, [1, 0, 0], [-150, 0, 0]), 99);
    assert_eq!(stressed_rate(100, [1, 0, 0], [150, 0, 0]), 101);
    assert_eq!(stressed_rate(100, [1, 1, 0], [50, 50, 0]), 101);
    assert_eq!(stressed_rate(100, [1, 1, -1], [-50, -49, 0]), 100);
    assert_eq!(stressed_rate(100, [1, -2, 3], [100, 200, 300]), 106);
}

#[test]
fn a_stressed_rate_stays_within_limits() {
    assert_eq!(stressed_rate(10, [-1_000_000; 3], [10_000; 3]), 0);
    assert_eq!(stressed_rate(10, [1_000_000; 3], [10_000; 3]), 1_000_000);
    assert_eq!(stressed_rate(10, [-11, 0, 0], [100, 0, 0]), 0);
}

#[test]
fn the_nodes_are_stressed_and_not_the_day() {
    let nodes = [node(0, 100, [-300, 0, 0]), node(10, 300, [0, 0, 0])];
    let stressed = stressed_nodes(&nodes, &[100, 0, 0]);
    assert_eq!(rate_on(&nodes, 5), 200);
    assert_eq!(rate_on(&stressed, 5), 150);
}

#[test]
fn rates_at_and_around_the_nodes() {
    let nodes = [node(2, 7, [0; 3]), node(4, 0, [0; 3]), node(7, 1, [0; 3])];
    let rates: Vec<u64> = (0..=9).map(|day| rate_on(&nodes, day)).collect();
    assert_eq!(rates, [7, 7, 7, 4, 0, 0, 0, 1, 1, 1]);
}

#[test]
fn the_first_of_equal_losses_is_the_worst() {
    let valuation = Valuation {
        base: 0,
        losses: vec![-1, 5, 0, 5],
    };
    assert_eq!((valuation.worst_scenario(), valuation.worst_loss()), (1, 5));
}
