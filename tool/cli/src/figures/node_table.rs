//! Nodes as a table.

use crate::printed::{Table, Value};
use seddolki_format::block::{Curve, Node};
use seddolki_text::decimal::PERCENT;

/// Nodes of some curves.
pub fn node_table<'a>(curves: impl IntoIterator<Item = (&'a Curve, &'a [Node])>) -> Table {
    let columns = "curve day rate component_1 component_2 component_3";
    let mut table = Table::new("nodes", columns);
    for (curve, nodes) in curves {
        for node in nodes {
            let rate = [
                Value::Id(curve.id.into()),
                Value::whole(node.day),
                Value::percent(node.rate),
            ];
            let components = node.components.map(|c| Value::Signed(c.into(), PERCENT));
            table.push(rate.into_iter().chain(components));
        }
    }
    table
}
