//! Files of trades, as spreadsheets read and write them.

use crate::column::Column;
use crate::columns::{trade_columns, COLUMNS};
use crate::csv_lines::{lines, Line};
use crate::decimal::Decimals;
use crate::fault::{faultless, shown, Fault};
use crate::file_content::content;
use crate::separator::{names_missing, says_separator, Separator};
use crate::trade::{record_of, values_of, Value};
use crate::unknown_columns::no_columns;
use csv::WriterBuilder;
use seddolki_format::Record;

/// A trade, and the line of the file that it stands on.
#[derive(Clone, Copy, Debug, PartialEq, Eq)]
pub struct Trade {
    /// Counted from 1.
    pub line: u64,
    /// The trade.
    pub record: Record,
}

/// What a file of trades holds, in the order of its lines.
#[derive(Clone, Debug, Default, PartialEq, Eq)]
pub struct TradesFile {
    /// The trades that are rightly written.
    pub trades: Vec<Trade>,
    /// What is wrong with the other lines, each fault with its line.
    pub faults: Vec<Fault>,
}

/// Reads the trades of a whole file. The first line names the columns, and
/// what separates the names says how numbers are written.
///
/// # Errors
/// The faults of the line that names the columns; no other line is read then.
pub fn read(bytes: &[u8]) -> Result<TradesFile, Vec<Fault>> {
    let bytes = content(bytes);
    let separator = Separator::of_file(&bytes).map_err(|fault| vec![fault])?;
    let mut lines = lines(&bytes, separator);
    let columns = columns(&mut lines)?;
    let mut file = TradesFile::default();
    for line in lines {
        let line = line.map_err(|fault| vec![fault]);
        match line.and_then(|line| trade(&columns, &line, separator.decimals())) {
            Ok(trade) => file.trades.push(trade),
            Err(faults) => file.faults.extend(faults),
        }
    }
    Ok(file)
}

/// The columns of a file: those that are named, and how many unnamed ones
/// stand behind them.
struct Columns {
    named: Vec<&'static Column>,
    unnamed: usize,
}

/// The columns that the first line names, behind one that says what separates
/// the values.
fn columns(lines: &mut impl Iterator<Item = Result<Line, Fault>>) -> Result<Columns, Vec<Fault>> {
    let says_separator = |line: &Line| line.values.get(0).is_some_and(says_separator);
    let mut line = lines.next();
    if matches!(&line, Some(Ok(first)) if says_separator(first)) {
        line = lines.next();
    }
    let line = line.unwrap_or_else(|| Err(names_missing()));
    let line = line.map_err(|fault| vec![fault])?;
    let names: Vec<&str> = line.values.iter().collect();
    let last = names.iter().rposition(|name| !name.trim().is_empty());
    let (names, unnamed) = names.split_at(last.map_or(0, |last| last + 1));
    let named = named(names).map_err(|faults| on_line(faults, line.number))?;
    Ok(Columns {
        named,
        unnamed: unnamed.len(),
    })
}

fn named(names: &[&str]) -> Result<Vec<&'static Column>, Vec<Fault>> {
    let (mut columns, mut unknown, mut faults) = (vec![], vec![], vec![]);
    for name in names {
        match Column::named(name) {
            Some(column) if columns.contains(&column) => {
                faults.push(Fault::new("it is named twice").in_column(column.name));
            }
            Some(column) => columns.push(column),
            None => unknown.push(*name),
        }
    }
    faults.extend(no_columns(&unknown, &trade_columns()));
    faultless(columns, faults)
}

fn trade(columns: &Columns, line: &Line, decimals: Decimals) -> Result<Trade, Vec<Fault>> {
    let (least, unnamed) = (columns.named.len(), columns.unnamed);
    if !(least..=least + unnamed).contains(&line.values.len()) {
        return Err(vec![miscounted(least, line)]);
    }
    let mut behind = line.values.iter().skip(least);
    if let Some(value) = behind.find(|value| !value.trim().is_empty()) {
        let message = format!("{} stands in a column without a name", shown(value));
        return Err(vec![Fault::new(message).on_line(line.number)]);
    }
    let values: Vec<Value> = columns.named.iter().copied().zip(&line.values).collect();
    let record = record_of(&values, decimals).map_err(|faults| on_line(faults, line.number))?;
    Ok(Trade {
        line: line.number,
        record,
    })
}

fn miscounted(due: usize, line: &Line) -> Fault {
    let found = line.values.len();
    let message = format!("{due} values due by the column names, {found} found");
    Fault::new(message).on_line(line.number)
}

fn on_line(faults: Vec<Fault>, line: u64) -> Vec<Fault> {
    let faults = faults.into_iter();
    faults.map(|fault| fault.on_line(line)).collect()
}

/// Writes trades with all columns; [`read`] gives the same records.
pub fn write(records: &[Record], separator: Separator) -> String {
    let mut builder = WriterBuilder::new();
    let mut writer = builder.delimiter(separator.byte()).from_writer(vec![]);
    let mut write = |values: Vec<String>| writer.write_record(values).expect(IN_MEMORY);
    write(COLUMNS.iter().map(|column| column.name.into()).collect());
    for record in records {
        let values = values_of(record, separator.decimals()).into_iter();
        write(values.map(|(_, text)| text).collect());
    }
    let bytes = writer.into_inner().expect(IN_MEMORY);
    String::from_utf8(bytes).expect("names and values are UTF-8")
}

const IN_MEMORY: &str = "writing to memory does not fail";
