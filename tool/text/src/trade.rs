//! A trade from named values, and back; a bond from named values.

use crate::column::Column;
use crate::columns::{bond_columns, trade_columns, COLUMNS};
use crate::decimal::Decimals;
use crate::fault::{faultless, shown, Fault};
use crate::trade_words::{a_trade_of, phases};
use seddolki_format::text::listed;
use seddolki_format::{Quote, Record};

/// A column and what is written there.
pub type Value<'a> = (&'static Column, &'a str);

/// The record that named values make. Every column that the trade uses has to
/// be given: a 0 that is meant is written.
///
/// # Errors
/// All faults of the values, in the order of the columns.
pub fn record_of(values: &[Value], decimals: Decimals) -> Result<Record, Vec<Fault>> {
    let mut record = Record::default();
    // the kind comes first, and the other columns are judged by it
    let read = read_columns(&trade_columns(), &mut record, values, decimals);
    let meant = trades_meant(&record, &read);
    faultless(record, faults(read, &meant, decimals))
}

/// The bond that named values make, as the record of its purchase today has
/// it. Every column of a bond has to be given; no other is looked at.
///
/// # Errors
/// All faults of the values, in the order of the columns.
pub fn purchase_of(values: &[Value], decimals: Decimals) -> Result<Record, Vec<Fault>> {
    let mut bond = Quote::default().purchase();
    let read = read_columns(&bond_columns(), &mut bond, values, decimals);
    faultless(bond, faults(read, &[bond], decimals))
}

/// A column, and how reading it went; none where nothing is given.
type Read = (&'static Column, Option<Result<(), String>>);

fn read_columns(
    columns: &[&'static Column],
    record: &mut Record,
    values: &[Value],
    decimals: Decimals,
) -> Vec<Read> {
    let read = |column: &&'static Column| match only_text(column, values) {
        Ok("") => (*column, None),
        Ok(text) => (*column, Some(column.fill(record, text, decimals))),
        Err(message) => (*column, Some(Err(message))),
    };
    columns.iter().map(read).collect()
}

/// What is wrong with the columns, those included that were left empty.
fn faults(read: Vec<Read>, meant: &[Record], decimals: Decimals) -> Vec<Fault> {
    let mut faults = vec![];
    for (column, given) in read {
        let wrong = match given {
            Some(filled) => filled.err(),
            None => missing(column, meant, decimals),
        };
        faults.extend(wrong.map(|message| Fault::new(message).in_column(column.name)));
    }
    faults
}

/// The record with each phase and security that may be meant, where they are
/// not rightly given; none while the kind is not known.
fn trades_meant(record: &Record, read: &[Read]) -> Vec<Record> {
    if a_trade_of(record.kind).is_none() {
        return vec![];
    }
    let mut read = read.iter();
    let known = read.any(|(column, given)| column.field == "security" && *given == Some(Ok(())));
    let securities = |trade: Record| {
        let own = trade.security..=trade.security;
        let securities = if known { own } else { trade.securities() };
        securities.map(move |security| Record { security, ..trade })
    };
    let mut phases = phases(record.kind);
    if phases.contains(&record.phase) {
        phases = record.phase..=record.phase;
    }
    let phases = phases.map(|phase| Record { phase, ..*record });
    phases.flat_map(securities).collect()
}

/// What is told of a column that was left empty: where whatever trade is meant
/// has to be given it, or no kind is known by which to tell.
fn missing(column: &Column, meant: &[Record], decimals: Decimals) -> Option<String> {
    let due = match meant {
        [] => *column == COLUMNS[0],
        _ => meant.iter().all(|trade| column.is_due(trade)),
    };
    let trade = meant.first().copied().unwrap_or_default();
    due.then(|| format!("nothing is given: {}", column.allowed(&trade, decimals)))
}

/// What is written for a column; nothing if it is not given.
fn only_text<'a>(column: &Column, values: &[Value<'a>]) -> Result<&'a str, String> {
    let own = values.iter().filter(|(other, _)| *other == column);
    let texts: Vec<&str> = own.map(|(_, text)| text.trim()).collect();
    match texts[..] {
        [] => Ok(""),
        [text] => Ok(text),
        _ => Err(given_often(&texts)),
    }
}

fn given_often(texts: &[&str]) -> String {
    let times = match texts.len() {
        2 => "twice".into(),
        count => format!("{count} times"),
    };
    let visible = |text: &&str| match *text {
        "" => "nothing".into(),
        text => shown(text),
    };
    let texts: Vec<String> = texts.iter().map(visible).collect();
    format!("it is given {times}: {}", listed(&texts, "and"))
}

/// The named values of a record, all columns in order; those that the trade
/// does not use are empty. [`record_of`] makes the same record of them.
pub fn values_of(record: &Record, decimals: Decimals) -> Vec<(&'static Column, String)> {
    let value = |column: &'static Column| (column, column.text(record, decimals));
    COLUMNS.iter().map(value).collect()
}

/// The record with the given columns changed. What it keeps has to fit its
/// kind as what is given does, but for zeros, which then go; what it did not
/// use before and uses now has to be given.
///
/// # Errors
/// All faults of the changed trade, in the order of the columns.
pub fn amend(record: &Record, values: &[Value], decimals: Decimals) -> Result<Record, Vec<Fault>> {
    let given = |column: &Column| values.iter().any(|(other, _)| *other == column);
    let mut kept = values_of(record, decimals);
    kept.retain(|(column, text)| !text.is_empty() && !given(column));
    let changed = changed_form(record, values, decimals);
    kept.retain(|(column, _)| column.get(record) != 0 || column.keeps_zero(&changed));
    let kept = kept.iter().map(|(column, text)| (*column, text.as_str()));
    let all: Vec<Value> = kept.chain(values.iter().copied()).collect();
    record_of(&all, decimals)
}

/// The record with its kind and phase changed, as far as that is rightly
/// given.
fn changed_form(record: &Record, values: &[Value], decimals: Decimals) -> Record {
    let mut changed = *record;
    for (column, text) in values {
        if ["kind", "phase"].contains(&column.field) {
            // a wrong value is told where the whole trade is read
            let _ = column.fill(&mut changed, text.trim(), decimals);
        }
    }
    changed
}
