//! The columns as a help text tells them.

use crate::column::Column;
use crate::decimal::Decimals;
use seddolki_format::record::{OUTRIGHT, POOL};
use seddolki_format::Record;

/// The most characters of a line.
const WIDTH: usize = 80;

/// The characters before a meaning.
const MARGIN: usize = 21;

/// The names of columns with their meanings and what is allowed, in lines of
/// at most 80 characters.
pub fn meanings(columns: &[&Column]) -> String {
    columns.iter().map(|column| meaning(column)).collect()
}

fn meaning(column: &Column) -> String {
    let text = format!("{}: {}", column.meaning, allowed(column));
    let mut name = column.name;
    let mut lines = String::new();
    for line in wrapped(&text, WIDTH - MARGIN) {
        lines += &format!("  {name:<width$}{line}\n", width = MARGIN - 2);
        name = "";
    }
    lines
}

/// What trades of all kinds may have.
fn allowed(column: &Column) -> String {
    let of = |kind| {
        let trade = Record {
            kind,
            ..Record::default()
        };
        column.allowed(&trade, Decimals::Point)
    };
    match column.field {
        "side" => format!("{} of an outright, {} of a repo", of(OUTRIGHT), of(POOL)),
        _ => of(0),
    }
}

/// A text in lines that are no wider than this, unless a word is.
fn wrapped(text: &str, width: usize) -> Vec<String> {
    let mut lines: Vec<String> = vec![];
    for word in text.split(' ') {
        match lines.last_mut() {
            Some(line) if line.len() + 1 + word.len() <= width => *line += &format!(" {word}"),
            _ => lines.push(word.into()),
        }
    }
    lines
}

/// Which columns the trades of each kind and phase use, when a security may
/// pay, and examples that fit the curves of the template; in lines of at most
/// 80 characters.
pub const USES: &str = include_str!("../help/uses.txt");

#[cfg(test)]
mod tests {
    use super::*;
    use crate::columns::{trade_columns, COLUMNS};
    use crate::trade::{record_of, Value};
    use crate::{curve_file, template};
    use seddolki::{Book, Date};
    use seddolki_doubles::doubles;
    use seddolki_format::assemble;
    use seddolki_format::record::SPECIFIED;

    fn assert_narrow(text: &str) {
        for line in text.lines() {
            assert!(
                line.chars().count() <= WIDTH && line == line.trim_end(),
                "{line}"
            );
        }
    }

    #[test]
    fn meanings_name_what_is_allowed() {
        let text = meanings(&trade_columns());
        assert_narrow(&text);
        for lines in [
            "\n  term               of a repo in days: 1 to 730\n",
            "\n  nominal            of the security: 0.01 to 10,000,000,000.00\n",
            "\n  side               of the account: buyer or seller of an outright, repo or\n\
             \x20                    reverse repo of a repo\n",
            "\n  value_day_1        of settlement or the first leg: 0 to 10,950 days from the\n\
             \x20                    valuation day\n",
            "\n  first_payment_day  of the security: 1 to 10,950 days from the valuation day\n",
        ] {
            assert!(text.contains(lines), "{text}");
        }
        let named = text.lines().filter(|line| !line.starts_with("   "));
        assert_eq!(named.count(), COLUMNS.len());
    }

    /// The columns of a row of a table, and whether each place uses them.
    fn row(line: &str) -> Option<(Vec<&'static Column>, [bool; 4])> {
        let mut cells = line.trim().split("  ").map(str::trim);
        let names = cells.next()?.split(", ");
        let columns = names.map(Column::named).collect::<Option<Vec<_>>>()?;
        let used = cells
            .filter(|cell| !cell.is_empty())
            .map(|cell| match cell {
                "yes" => true,
                "no" => false,
                _ => panic!("{cell}"),
            });
        Some((columns, used.collect::<Vec<_>>().try_into().unwrap()))
    }

    fn trade(kind: u8, phase: u8, security: u8) -> Record {
        Record {
            kind,
            phase,
            security,
            ..Record::default()
        }
    }

    #[test]
    fn the_tables_are_those_of_the_columns() {
        assert_narrow(USES);
        let (by_kind, by_security) = USES.split_once("and by security").unwrap();
        let forms = [
            vec![trade(OUTRIGHT, 0, 1)],
            vec![trade(POOL, 1, 0)],
            vec![trade(POOL, 2, 1), trade(SPECIFIED, 1, 2)],
            vec![trade(POOL, 3, 1), trade(SPECIFIED, 2, 3)],
        ];
        let securities = [0, 1, 2, 3].map(|security| {
            let phase = if security == 0 { 1 } else { 2 };
            vec![trade(POOL, phase, security)]
        });
        let mut told = vec![];
        for (table, places) in [(by_kind, forms), (by_security, securities)] {
            for (columns, used) in table.lines().filter_map(row) {
                for column in columns {
                    let due = |trades: &Vec<Record>| trades.iter().all(|t| column.is_due(t));
                    assert_eq!(places.each_ref().map(due), used, "{}", column.name);
                    told.push(column.name);
                }
            }
        }
        let mut all = COLUMNS.iter().map(|column| column.name).collect::<Vec<_>>();
        all.sort_unstable();
        told.sort_unstable();
        assert_eq!(told, all);
    }

    #[test]
    fn the_engine_takes_the_examples() {
        let file = curve_file::read(template::CURVES.as_bytes()).unwrap();
        let day = Date::FIRST;
        let mut book = Book::from_bytes(assemble(file.account, day, &file.curves, &[]));
        let mut records = vec![];
        for command in USES.split("seddolki append desk.book").skip(1) {
            let words = command.split_whitespace().filter(|word| *word != "\\");
            let pairs = words.map(|word| word.split_once('=').unwrap());
            let named = pairs.map(|(name, value)| (Column::find(name).unwrap(), value));
            let values: Vec<Value> = named.collect();
            let record = record_of(&values, Decimals::Point).unwrap();
            assert_eq!(book.append(day, &record), Ok(records.len()));
            records.push(record);
        }
        let kinds: Vec<u8> = records.iter().map(|record| record.kind).collect();
        assert_eq!(kinds, [OUTRIGHT, POOL, SPECIFIED]);
        let repo = records[2];
        assert!(repo.first_payment_day <= repo.value_day_2);
        assert_eq!(doubles(&records), []);
    }
}
