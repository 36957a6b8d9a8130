//! A named column of a trade.

use crate::columns::{prices, trade_columns, COLUMNS};
use crate::decimal::{plain, Decimals};
use crate::fault::{shown, Fault};
use crate::quantity::Quantity;
use crate::trade_words::{a_trade_of, phases, Word};
use crate::unknown_columns::no_columns;
use seddolki_format::record::{OUTRIGHT, POOL};
use seddolki_format::text::listed;
use seddolki_format::Record;

/// How a column's values are written.
#[derive(Clone, Copy, Debug)]
pub enum Unit {
    /// One of the words that the trade may have by its kind and phase.
    Words(Words),
    /// A number.
    Number(Quantity),
}

/// The words that a trade may have.
type Words = fn(&Record) -> &'static [Word];

/// A column: a field of the record as people write it.
#[derive(Debug)]
pub struct Column {
    /// The name in a file of trades.
    pub name: &'static str,
    /// What it is, in a few words.
    pub meaning: &'static str,
    /// How its values are written.
    pub unit: Unit,
    /// The field of the record by its name there.
    pub field: &'static str,
    pub(crate) used: fn(&Record) -> bool,
    pub(crate) get: fn(&Record) -> u64,
    pub(crate) set: fn(&mut Record, u64) -> Option<()>,
}

impl PartialEq for Column {
    fn eq(&self, other: &Self) -> bool {
        self.name == other.name
    }
}

impl Column {
    /// The column of a name; case, and blanks for underscores, do not matter.
    pub fn named(name: &str) -> Option<&'static Column> {
        let name = spelled(name);
        COLUMNS.iter().find(|column| column.name == name)
    }

    /// The column of a trade with a name, or a fault that names the column
    /// that may be meant, or all.
    pub fn find(name: &str) -> Result<&'static Column, Fault> {
        Column::find_among(&trade_columns(), name)
    }

    /// The same among some columns alone.
    pub fn find_among(columns: &[&'static Column], name: &str) -> Result<&'static Column, Fault> {
        let column = Column::named(name).filter(|column| columns.contains(column));
        column.ok_or_else(|| no_columns(&[name], columns).remove(0))
    }

    /// The column that stands for a field of this record, by the field's
    /// name there: the price of an outright and the rate of a repo share one.
    pub fn of_field(record: &Record, field: &str) -> Option<&'static Column> {
        let mut columns = COLUMNS.iter().filter(|column| column.field == field);
        let fitting = columns.clone().find(|column| column.fits(record.kind));
        fitting.or_else(|| columns.next())
    }

    /// Whether a trade of the kind may have a value here.
    pub fn fits(&self, kind: u8) -> bool {
        let other = if kind == OUTRIGHT { POOL } else { OUTRIGHT };
        a_trade_of(kind).is_none() || !prices(other).contains(&self.name)
    }

    /// Whether the trade uses the field.
    pub fn is_used(&self, record: &Record) -> bool {
        (self.used)(record)
    }

    /// The number that the record holds, in units of the last place; 0 where
    /// the field stands for another column.
    pub fn get(&self, record: &Record) -> u64 {
        match Column::of_field(record, self.field) {
            Some(column) if column == self => (self.get)(record),
            _ => 0,
        }
    }

    /// Puts a number into the record; none where the field can't hold it.
    pub fn set(&self, record: &mut Record, number: u64) -> Option<()> {
        (self.set)(record, number)
    }

    /// What the trade may have here by its kind and phase, in words.
    pub fn allowed(&self, trade: &Record, decimals: Decimals) -> String {
        match self.unit {
            Unit::Number(quantity) => self.limited(quantity, trade.kind).allowed(decimals),
            Unit::Words(words) => named(words(trade)),
        }
    }

    /// The value as it is written; nothing where the trade does not use it.
    pub fn text(&self, record: &Record, decimals: Decimals) -> String {
        let number = self.get(record);
        if number == 0 && !self.is_used(record) {
            return String::new();
        }
        match self.unit {
            Unit::Number(quantity) => plain(number, quantity.places, decimals),
            Unit::Words(words) => {
                let mut words = words(&of_kind(record.kind)).iter();
                let word = words.find(|(_, value)| u64::from(*value) == number);
                word.map_or_else(|| number.to_string(), |(word, _)| (*word).to_owned())
            }
        }
    }

    /// Puts a written value into a new record, whose kind is known by now.
    pub(crate) fn fill(
        &self,
        record: &mut Record,
        text: &str,
        decimals: Decimals,
    ) -> Result<(), String> {
        if !self.fits(record.kind) {
            let trade = a_trade_of(record.kind).unwrap_or("this trade");
            let (text, prices) = (shown(text), listed(prices(record.kind), "and"));
            return Err(format!(
                "{text} is not for {trade}, which has {prices}: leave it empty"
            ));
        }
        match self.unit {
            Unit::Words(words) => self.fill_word(record, text, words),
            Unit::Number(quantity) => {
                let quantity = self.limited(quantity, record.kind);
                let mut field = |number: i64| self.set(record, number.try_into().ok()?);
                quantity.read(text, decimals, &mut field)
            }
        }
    }

    /// The phases alone have other limits from kind to kind.
    fn limited(&self, quantity: Quantity, kind: u8) -> Quantity {
        let phases = phases(kind);
        if self.field != "phase" || *phases.start() == 0 {
            return quantity;
        }
        Quantity {
            low: (*phases.start()).into(),
            high: (*phases.end()).into(),
            ..quantity
        }
    }

    /// Whether the trade has to be given a value here: it uses the column,
    /// and is not left with none as its only word.
    pub(crate) fn is_due(&self, trade: &Record) -> bool {
        let choice = match self.unit {
            Unit::Words(words) => words(trade).iter().any(|(_, value)| *value != 0),
            Unit::Number(_) => true,
        };
        choice && self.is_used(trade)
    }

    /// Whether a 0 that was right may be kept by a trade of this kind and
    /// phase.
    pub(crate) fn keeps_zero(&self, trade: &Record) -> bool {
        match self.unit {
            Unit::Words(words) => words(trade).iter().any(|(_, value)| *value == 0),
            Unit::Number(_) => self.fits(trade.kind),
        }
    }

    fn fill_word(&self, record: &mut Record, text: &str, words: Words) -> Result<(), String> {
        let word = text.to_ascii_lowercase().replace('_', " ");
        let number = |words: &[Word]| {
            let found = words.iter().find(|(name, _)| *name == word);
            found.map(|(_, value)| u64::from(*value))
        };
        let own = words(&of_kind(record.kind));
        let filled = number(own).and_then(|number| self.set(record, number));
        filled.ok_or_else(|| {
            let elsewhere = number(words(&Record::default()));
            match a_trade_of(record.kind).filter(|_| elsewhere.is_some()) {
                Some(trade) => format!("{} is not for {trade}: {}", shown(text), named(own)),
                None => format!("{} is none of {}", shown(text), named(own)),
            }
        })
    }
}

/// A column's name as the list of columns has it.
pub(crate) fn spelled(name: &str) -> String {
    name.trim().to_ascii_lowercase().replace(' ', "_")
}

/// A trade of which the kind alone is known.
fn of_kind(kind: u8) -> Record {
    Record {
        kind,
        ..Record::default()
    }
}

fn named(words: &[Word]) -> String {
    listed(words.iter().map(|(word, _)| word), "or")
}
