//! The net cash flow ladder, and the flows one by one.

use crate::arguments::Flows;
use crate::ended::Ended;
use crate::figures::{add_flow, chosen_curves, curve_cells, flow_values};
use crate::files::{accepted, BookFile};
use crate::printed::{Table, Value};
use crate::trades::{flows_of, signed, FlowKind};
use seddolki::Record;
use seddolki_chart::DayFlows;
use seddolki_format::block::Curve;
use seddolki_text::decimal::MONEY;
use std::collections::{BTreeMap, BTreeSet};

pub fn run(arguments: &Flows) -> Result<(), Ended> {
    let file = accepted(&arguments.book)?;
    let curves = chosen_curves(&file, arguments.curve)?;
    let table = match arguments.values {
        true => one_by_one(&file, &curves)?,
        false => by_day(&file, &curves),
    };
    let form = arguments.form;
    form.print(&[table], |[table]| {
        let flows = match table.rows[..] {
            [] => "no cash flows\n".into(),
            _ => table.text_without(&["valuation_day"]),
        };
        format!("{}\n\n{flows}", file.in_words())
    })
}

fn by_day(file: &BookFile, curves: &[&Curve]) -> Table {
    let columns = "valuation_day curve currency day in out net flows";
    let mut table = Table::new("flows", columns);
    for curve in curves {
        for (day, kinds) in days(&file.parts.trades, curve).into_values() {
            let kinds: Vec<&str> = kinds.iter().map(|kind| kind.name()).collect();
            let net = i128::from(day.incoming) - i128::from(day.outgoing);
            let sums = [
                Value::whole(day.day),
                Value::money(day.incoming),
                Value::money(day.outgoing),
                Value::Signed(net, MONEY),
                Value::text(kinds.join(", ")),
            ];
            table.push(curve_cells(file, curve).into_iter().chain(sums));
        }
    }
    table
}

/// The flows of a curve on each day: their sums, and what they are.
fn days(trades: &[Record], curve: &Curve) -> BTreeMap<u64, (DayFlows, BTreeSet<FlowKind>)> {
    let mut days: BTreeMap<u64, (DayFlows, BTreeSet<FlowKind>)> = BTreeMap::new();
    let flows = trades.iter().flat_map(flows_of);
    for (kind, flow) in flows.filter(|(_, flow)| flow.curve == curve.id) {
        let (sums, kinds) = days.entry(flow.day).or_default();
        add_flow(sums, &flow);
        kinds.insert(kind);
    }
    days
}

fn one_by_one(file: &BookFile, curves: &[&Curve]) -> Result<Table, Ended> {
    let report = file.margin()?;
    let columns = "valuation_day curve currency position day amount rate present_value \
                   tolerance flow";
    let mut table = Table::new("values", columns);
    for curve in curves {
        for value in flow_values(file, &report, curve)? {
            let cells = [
                Value::count(value.position),
                Value::whole(value.flow.day),
                Value::Signed(signed(&value.flow), MONEY),
                Value::percent(value.rate),
                Value::Signed(value.present_value.into(), MONEY),
                Value::money(value.tolerance),
                Value::text(value.kind.name()),
            ];
            table.push(curve_cells(file, curve).into_iter().chain(cells));
        }
    }
    Ok(table)
}
