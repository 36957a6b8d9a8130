//! A curve that several tests start from.

use seddolki_model::{Curve, Node};

/// In lira: nodes in one year and in two, both at a rate and with a first
/// component, by which there are three scenarios.
pub fn flat_curve(id: u8, rate: u32, component: i32) -> Curve {
    let node = |day| Node {
        day,
        rate,
        components: [component, 0, 0],
    };
    Curve {
        steps: [1, 0, 0],
        ranges: [100, 0, 0],
        ..Curve::new(id, 1, &[node(365), node(730)])
    }
}
