//! Trades that were keyed, and trades as cells.

use crate::ended::Ended;
use crate::printed::Value;
use seddolki::Record;
use seddolki_text::{Column, Decimals, Fault, Unit, COLUMNS};

/// What stands on each side of the equals signs, a column of these before it.
pub fn named_values<'a>(
    columns: &[&'static Column],
    arguments: &'a [String],
) -> Result<Vec<(&'static Column, &'a str)>, Ended> {
    let (mut values, mut unknown) = (vec![], vec![]);
    for argument in arguments {
        let Some((name, value)) = argument.split_once('=') else {
            let reason = format!("{argument}: a column and its value are written COLUMN=VALUE");
            return Err(Ended::Misused(reason));
        };
        match Column::find_among(columns, name) {
            Ok(column) => values.push((column, value)),
            Err(fault) => unknown.push(fault.to_string()),
        }
    }
    if unknown.is_empty() {
        return Ok(values);
    }
    Err(Ended::Refused(unknown))
}

/// Every fault of what was keyed, behind the name of where it was.
pub fn faults_told(name: &str, faults: &[Fault]) -> Ended {
    let lines = faults.iter().map(|fault| format!("{name}: {fault}"));
    Ended::Refused(lines.collect())
}

/// The columns of a trade as cells, empty where it does not use them.
pub fn cells(record: &Record) -> Vec<Value> {
    COLUMNS.iter().map(|column| cell(column, record)).collect()
}

fn cell(column: &Column, record: &Record) -> Value {
    if !column.is_used(record) {
        return Value::Nothing;
    }
    match column.unit {
        Unit::Words(_) => Value::Text(column.text(record, Decimals::Point)),
        Unit::Number(quantity) => Value::Decimal(column.get(record).into(), quantity.places),
    }
}
