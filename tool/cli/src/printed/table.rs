//! Tables, for people and for programs.

use crate::printed::print::visible;
use seddolki::Date;
use seddolki_text::decimal::{self, Decimals};
use serde_json::{Map, Value as Json};
use std::collections::BTreeSet;
use unicode_width::UnicodeWidthStr;

/// A cell. A decimal number is whole in units of the last of its places.
#[derive(Clone, Debug, PartialEq)]
pub enum Value {
    Nothing,
    Text(String),
    /// A number that is a name, as an account's.
    Id(u32),
    Flag(bool),
    Decimal(i128, u32),
    /// A decimal number that shows a plus to people.
    Signed(i128, u32),
}

/// Rows under named columns.
#[derive(Debug)]
pub struct Table {
    pub name: &'static str,
    pub columns: Vec<&'static str>,
    pub rows: Vec<Vec<Value>>,
}

impl From<Option<Value>> for Value {
    fn from(cell: Option<Value>) -> Self {
        cell.unwrap_or(Value::Nothing)
    }
}

impl Value {
    pub fn text(text: impl Into<String>) -> Self {
        Value::Text(text.into())
    }

    pub fn date(date: Date) -> Self {
        Value::Text(date.to_string())
    }

    pub fn money(amount: impl Into<i128>) -> Self {
        Value::Decimal(amount.into(), decimal::MONEY)
    }

    pub fn percent(rate: impl Into<i128>) -> Self {
        Value::Decimal(rate.into(), decimal::PERCENT)
    }

    pub fn coefficient(coefficient: impl Into<i128>) -> Self {
        Value::Signed(coefficient.into(), decimal::COEFFICIENT)
    }

    pub fn whole(number: impl Into<i128>) -> Self {
        Value::Decimal(number.into(), 0)
    }

    pub fn count(number: usize) -> Self {
        Value::whole(number as i128)
    }

    fn for_people(&self) -> String {
        match self {
            Value::Nothing => String::new(),
            Value::Text(text) => visible(text).replace('\n', "\\n"),
            Value::Id(number) => number.to_string(),
            Value::Flag(flag) => if *flag { "yes" } else { "" }.to_owned(),
            Value::Decimal(number, places) => decimal::format(*number, *places),
            Value::Signed(number, places) => decimal::format_signed(*number, *places),
        }
    }

    fn plain(&self, decimals: Decimals) -> String {
        match self {
            Value::Nothing => String::new(),
            Value::Text(text) => text.clone(),
            Value::Id(number) => number.to_string(),
            Value::Flag(flag) => flag.to_string(),
            Value::Decimal(number, places) | Value::Signed(number, places) => {
                decimal::plain(*number, *places, decimals)
            }
        }
    }

    /// Whole numbers are numbers; decimal ones are texts, so that no digit is lost.
    fn json(&self) -> Json {
        match self {
            Value::Nothing => Json::Null,
            Value::Decimal(number, 0) => i64::try_from(*number).map_or(Json::Null, Json::from),
            Value::Id(number) => Json::from(*number),
            Value::Flag(flag) => Json::from(*flag),
            other => Json::String(other.plain(Decimals::Point)),
        }
    }
}

impl Table {
    /// The names of its columns are a blank apart.
    pub fn new(name: &'static str, columns: &'static str) -> Self {
        Table::with(name, columns.split_whitespace().collect())
    }

    pub fn with(name: &'static str, columns: Vec<&'static str>) -> Self {
        let rows = vec![];
        Table {
            name,
            columns,
            rows,
        }
    }

    pub fn push(&mut self, row: impl IntoIterator<Item = Value>) {
        let row: Vec<Value> = row.into_iter().collect();
        debug_assert_eq!(row.len(), self.columns.len());
        self.rows.push(row);
    }

    /// The table for people, without the columns that are left out: names on
    /// the first line, numbers to the right, two blanks between columns.
    pub fn text_without(&self, left_out: &[&str]) -> String {
        let places = 0..self.columns.len();
        let shown: Vec<usize> = places
            .filter(|&i| !left_out.contains(&self.columns[i]))
            .collect();
        let mut lines: Vec<Vec<String>> = vec![shown.iter().map(|&i| self.heading(i)).collect()];
        let cells = |row: &Vec<Value>| shown.iter().map(|&i| row[i].for_people()).collect();
        lines.extend(self.rows.iter().map(cells));
        let left: Vec<bool> = shown.iter().map(|&i| self.is_text(i)).collect();
        aligned(&left, &lines)
    }

    pub fn text(&self) -> String {
        self.text_without(&[])
    }

    /// A column's name; of `step_2` behind `step_1` the number alone.
    fn heading(&self, column: usize) -> String {
        let before = column.checked_sub(1).map(|i| self.columns[i]);
        let stem = |name: &'static str| name.rsplit_once('_');
        match (stem(self.columns[column]), before.and_then(stem)) {
            (Some((own, number)), Some((other, _))) if own == other && number.len() == 1 => {
                number.to_owned()
            }
            _ => self.columns[column].replace('_', " "),
        }
    }

    fn is_text(&self, column: usize) -> bool {
        let mut cells = self.rows.iter().map(|row| &row[column]);
        cells.any(|cell| matches!(cell, Value::Text(_) | Value::Flag(_)))
    }

    fn objects(&self) -> Json {
        let object = |row: &Vec<Value>| -> Json {
            let names = self.columns.iter().map(|name| (*name).to_owned());
            let pairs = names.zip(row.iter().map(Value::json));
            Json::Object(pairs.collect::<Map<_, _>>())
        };
        self.rows.iter().map(object).collect()
    }
}

/// Lines of cells, each column as wide as its widest cell.
fn aligned(left: &[bool], lines: &[Vec<String>]) -> String {
    let width = |column: usize| {
        let cells = lines.iter().map(|line| line[column].width());
        cells.max().unwrap_or(0)
    };
    let widths: Vec<usize> = (0..left.len()).map(width).collect();
    let padded = |((cell, left), width): ((&String, &bool), &usize)| {
        let blanks = " ".repeat(width - cell.width());
        match left {
            true => format!("{cell}{blanks}"),
            false => format!("{blanks}{cell}"),
        }
    };
    let line = |cells: &Vec<String>| {
        let cells = cells.iter().zip(left).zip(&widths).map(padded);
        let line = cells.collect::<Vec<_>>().join("  ");
        line.trim_end().to_owned() + "\n"
    };
    lines.iter().map(line).collect()
}

/// An object with an array for each table, of an object for each row.
pub fn json(tables: &[Table]) -> String {
    let pairs = tables.iter().map(|t| (t.name.to_owned(), t.objects()));
    let object = Json::Object(pairs.collect());
    format!("{object:#}\n")
}

/// One line of names, then all rows. Where there are several tables, the
/// first column says which a row is of, and what its table lacks is empty.
pub fn csv(tables: &[Table], decimals: Decimals) -> String {
    let mut names: Vec<&str> = tables.iter().flat_map(|t| t.columns.clone()).collect();
    let mut seen = BTreeSet::new();
    names.retain(|name| seen.insert(*name));
    let delimiter = match decimals {
        Decimals::Comma => b';',
        _ => b',',
    };
    let mut builder = csv::WriterBuilder::new();
    let mut out = builder.delimiter(delimiter).from_writer(vec![]);
    let mut write = |table: &str, cells: Vec<String>| {
        let table = (tables.len() > 1).then(|| table.to_owned());
        let line = table.into_iter().chain(cells);
        out.write_record(line).expect("memory takes every record");
    };
    write("table", names.iter().map(ToString::to_string).collect());
    for table in tables {
        for row in &table.rows {
            let cell = |name: &&str| {
                let place = table.columns.iter().position(|column| column == name);
                place.map_or(String::new(), |i| row[i].plain(decimals))
            };
            write(table.name, names.iter().map(cell).collect());
        }
    }
    let bytes = out.into_inner().expect("memory is flushed");
    String::from_utf8(bytes).expect("texts are written as they are")
}
