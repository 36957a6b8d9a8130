//! Amounts and payments of whole kuruş and a half.

use seddolki_books::{draw_half_payment, is_half, undiscounted_book, Draw, Rest, Tally};
use seddolki_model::discount::present_value;
use seddolki_model::{
    discount_factor, product, stressed_nodes, Curve, Node, MAX_AMOUNT, MAX_DAY, MAX_RATE,
};
use std::collections::BTreeSet;

#[test]
fn drawn_amounts_have_their_rest_at_any_factor() {
    let mut draw = Draw::new(1);
    let mut reached = Tally::default();
    for _ in 0..10_000 {
        let (rate, day) = (draw.edge(0..=MAX_RATE), draw.edge(0..=MAX_DAY));
        let factor = discount_factor(rate, day);
        for rest in Rest::ALL {
            let Some(amount) = rest.draw_amount(&mut draw, factor, MAX_AMOUNT) else {
                continue;
            };
            assert!(amount <= MAX_AMOUNT);
            assert_eq!(Rest::of(amount, factor), Some(rest), "{rate} {day}");
            let more = present_value(amount.into(), factor) - product(amount, factor);
            assert_eq!(more == 1, rest >= Rest::Half, "{rate} {day}");
            reached.add(rest);
        }
    }
    reached.assert_all(Rest::ALL, 5_000);
}

/// The amounts up to 100 with a rest of a half at a factor.
fn halves(factor: u64) -> BTreeSet<u64> {
    let mut draw = Draw::new(2);
    let drawn = (0..1_000).filter_map(|_| Rest::Half.draw_amount(&mut draw, factor, 100));
    drawn.collect()
}

#[test]
fn halves_are_the_amounts_that_have_them() {
    let every = |first, step| (first..=100).step_by(step).collect::<BTreeSet<u64>>();
    // 1/2, 1/4, 5/8 and 25/32
    assert_eq!(halves(500_000_000_000), every(1, 2));
    assert_eq!(halves(250_000_000_000), every(2, 4));
    assert_eq!(halves(625_000_000_000), every(4, 8));
    assert_eq!(halves(781_250_000_000), every(16, 32));
    // of fifths, of wholes and of an odd factor none is so small
    for factor in [800_000_000_000, 1_000_000_000_000, 333_333_333_333] {
        assert_eq!(halves(factor), every(101, 1));
    }
    let mut draw = Draw::new(2);
    let only = Rest::Half.draw_amount(&mut draw, 333_333_333_333, MAX_AMOUNT);
    assert_eq!(only, Some(500_000_000_000));
}

/// At 100%, and by the first component at 60%.
fn halving_curve() -> Curve {
    let mut curve = undiscounted_book().curves[0];
    for node in &mut curve.places[..2] {
        node.rate = 1_000_000;
        node.components[0] = -400_000;
    }
    curve
}

#[test]
fn a_drawn_payment_is_a_half_at_one_of_the_curve_s_rates() {
    let mut draw = Draw::new(3);
    let curve = halving_curve();
    let moved = stressed_nodes(curve.nodes(), &[100, 0, 0]);
    let mut reached = Tally::default();
    for _ in 0..400 {
        let payment = draw_half_payment(&mut draw, &curve);
        let day = u64::from(payment.first_payment_day);
        let half = |nodes: &[Node]| is_half(nodes, day, payment.nominal.into());
        reached.add((payment.side, day, half(curve.nodes()), half(&moved)));
    }
    let sides = [1, 2].into_iter();
    let days = sides.flat_map(|side| [365, 730].map(|day| (side, day)));
    let all = days.flat_map(|(side, day)| [true, false].map(|own| (side, day, own, !own)));
    reached.assert_all(all, 20);
}
