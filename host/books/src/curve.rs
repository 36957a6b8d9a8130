//! Curves drawn at random.

use crate::Draw;
use seddolki_model::limits::*;
use seddolki_model::{Curve, Node};
use std::collections::BTreeSet;

/// One to eight curves, often of one currency.
pub fn draw_curves(draw: &mut Draw) -> Vec<Curve> {
    let count = draw.edge(u64::from(*CURVES.start())..=u64::from(*CURVES.end()));
    draw_so_many_curves(draw, count)
}

/// So many, often of one currency.
pub(crate) fn draw_so_many_curves(draw: &mut Draw, count: u64) -> Vec<Curve> {
    let one_currency = draw.once_in(3).then(|| draw_currency(draw));
    (1..=count)
        .map(|id| {
            let currency = one_currency.unwrap_or_else(|| draw_currency(draw));
            draw_curve(draw, id as u8, currency)
        })
        .collect()
}

fn draw_currency(draw: &mut Draw) -> u8 {
    draw.within(1..=MAX_CURRENCIES as u64) as u8
}

fn draw_curve(draw: &mut Draw, id: u8, currency: u8) -> Curve {
    let days = draw_node_days(draw).into_iter();
    let nodes: Vec<Node> = days.map(|day| draw_node(draw, day)).collect();
    let mut curve = Curve::new(id, currency, &nodes);
    for component in 0..curve.steps.len() {
        curve.steps[component] = draw.within(0..=MAX_STEPS.into()) as u8;
        curve.ranges[component] = draw.edge(0..=MAX_RANGE.into()) as u16;
    }
    curve
}

/// Rising days, now and then with day 0 or the last day of all.
fn draw_node_days(draw: &mut Draw) -> BTreeSet<u16> {
    let count = draw.edge(u64::from(*NODES.start())..=u64::from(*NODES.end())) as usize;
    let furthest = draw.edge(count as u64..=MAX_DAY);
    let mut days = BTreeSet::new();
    if draw.once_in(4) {
        days.insert(furthest as u16);
    }
    if draw.once_in(4) {
        days.insert(0);
    }
    while days.len() < count {
        days.insert(draw.within(0..=furthest) as u16);
    }
    days
}

fn draw_node(draw: &mut Draw, day: u16) -> Node {
    let components = draw_components(draw);
    Node {
        day,
        rate: draw.edge(0..=MAX_RATE) as u32,
        components,
    }
}

/// Of a node, of either sign.
pub(crate) fn draw_components(draw: &mut Draw) -> [i32; 3] {
    [(); 3].map(|()| {
        let size = draw.edge(0..=MAX_COMPONENT as u64) as i32;
        if draw.once_in(2) {
            size
        } else {
            -size
        }
    })
}
