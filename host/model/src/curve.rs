//! The rate of a curve on a day.

use crate::Node;

/// Rate on a day: the end node's outside the nodes, between them on the
/// line, its quotient cut towards zero. There is a node at least.
pub fn rate_on(nodes: &[Node], day: u64) -> u64 {
    let after = nodes.partition_point(|node| u64::from(node.day) <= day);
    if after == 0 || after == nodes.len() {
        return nodes[after.saturating_sub(1)].rate.into();
    }
    let (left, right) = (&nodes[after - 1], &nodes[after]);
    let rise = i64::from(right.rate) - i64::from(left.rate);
    let gone = day as i64 - i64::from(left.day);
    let width = i64::from(right.day) - i64::from(left.day);
    (i64::from(left.rate) + rise * gone / width) as u64
}
