//! Cash flows summed by day, and nodes, as pictures take them.

use seddolki_chart::{DayFlows, Node};
use seddolki_format::block;
use seddolki_model::flows::CashFlow;
use std::collections::BTreeMap;

/// Adds a flow to the sums of its day.
pub fn add_flow(sums: &mut DayFlows, flow: &CashFlow) {
    let sum = match flow.sign {
        1 => &mut sums.incoming,
        _ => &mut sums.outgoing,
    };
    *sum += flow.amount as u64;
    sums.day = flow.day as u32;
}

/// The sums of each day that has a flow.
pub fn ladder(flows: &[CashFlow]) -> Vec<DayFlows> {
    let mut days: BTreeMap<u64, DayFlows> = BTreeMap::new();
    for flow in flows {
        add_flow(days.entry(flow.day).or_default(), flow);
    }
    days.into_values().collect()
}

pub fn chart_nodes(nodes: &[block::Node]) -> Vec<Node> {
    let node = |node: &block::Node| Node {
        day: node.day.into(),
        rate: node.rate,
    };
    nodes.iter().map(node).collect()
}
