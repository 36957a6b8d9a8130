//! The scenarios of a curve and the nodes that they stress.

use crate::{Curve, Node, MAX_RATE};

/// A coefficient, in hundredths, for each component.
pub type Scenario = [i64; 3];

/// Coefficients of one component, lowest first.
pub fn coefficients(steps: u8, range: u16) -> Vec<i64> {
    let steps = i64::from(steps);
    (-steps..=steps)
        .map(|j| j * i64::from(range) / steps.max(1))
        .collect()
}

/// The list: the first component slowest, the third fastest.
pub fn scenarios(curve: &Curve) -> Vec<Scenario> {
    let of = |i: usize| coefficients(curve.steps[i], curve.ranges[i]);
    let (firsts, seconds, thirds) = (of(0), of(1), of(2));
    let mut list = vec![];
    for &first in &firsts {
        for &second in &seconds {
            for &third in &thirds {
                list.push([first, second, third]);
            }
        }
    }
    list
}

/// The nodes with their rates stressed.
pub fn stressed_nodes(nodes: &[Node], scenario: &Scenario) -> Vec<Node> {
    nodes
        .iter()
        .map(|node| Node {
            rate: stressed_rate(node, scenario),
            ..*node
        })
        .collect()
}

fn stressed_rate(node: &Node, scenario: &Scenario) -> u32 {
    let sum: i64 = scenario
        .iter()
        .zip(&node.components)
        .map(|(coefficient, &component)| coefficient * i64::from(component))
        .sum();
    (i64::from(node.rate) + sum / 100).clamp(0, MAX_RATE as i64) as u32
}
