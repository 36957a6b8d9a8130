//! What pictures are drawn from.

use seddolki_chart::{DayFlows, Node};

pub fn nodes(days_and_rates: &[(u32, u32)]) -> Vec<Node> {
    let node = |(day, rate): &(u32, u32)| Node {
        day: *day,
        rate: *rate,
    };
    days_and_rates.iter().map(node).collect()
}

pub fn flows(day: u32, incoming: u64, outgoing: u64) -> DayFlows {
    DayFlows {
        day,
        incoming,
        outgoing,
    }
}
