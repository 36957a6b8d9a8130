//! Trades that are to be added to a book: one that was keyed, or those of a
//! file.

use crate::compared::Margins;
use crate::current_day::CurrentDay;
use crate::ended::Ended;
use crate::files::{name_of, one_stream, text, BookFile};
use crate::trades::{faults_told, named_values, record_refused, words, Told};
use seddolki::{Book, Ground, Record, Refusal};
use seddolki_doubles::{doubles_among, stands_already, Placed};
use seddolki_format::block::Curve;
use seddolki_format::text::count;
use seddolki_model::accept;
use seddolki_text::trade::record_of;
use seddolki_text::trades_file::{self, TradesFile};
use seddolki_text::{trade_columns, Decimals};
use std::path::Path;

pub struct NewTrades {
    /// The name of the book that they are for.
    pub book: String,
    /// The day that the book is to be for.
    pub day: CurrentDay,
    records: Vec<Record>,
    /// The name of their file, and what it holds; none where a trade was keyed.
    file: Option<(String, TradesFile)>,
}

impl NewTrades {
    /// The trade that was keyed, by its columns.
    pub fn keyed(book: &Path, day: CurrentDay, values: &[String]) -> Result<Self, Ended> {
        let book = name_of(book);
        let given = named_values(&trade_columns(), values)?;
        let record = record_of(&given, Decimals::Point);
        let record = record.map_err(|faults| faults_told(&book, &faults))?;
        Ok(NewTrades {
            book,
            day,
            records: vec![record],
            file: None,
        })
    }

    /// The trades of a file.
    pub fn of_file(book: &Path, day: CurrentDay, file: &Path) -> Result<Self, Ended> {
        one_stream(&[book, file])?;
        let input = text(file)?;
        let read = trades_file::read(&input.bytes);
        let read = read.map_err(|faults| faults_told(&input.name, &faults))?;
        Ok(NewTrades {
            book: name_of(book),
            day,
            records: read.trades.iter().map(|trade| trade.record).collect(),
            file: Some((input.name, read)),
        })
    }

    pub fn count(&self) -> usize {
        self.records.len()
    }

    /// The command that adds them.
    pub fn command(&self) -> &'static str {
        self.file.as_ref().map_or("append", |_| "import")
    }

    /// Which are added from a position on, or would be, in words.
    pub fn in_words(&self, first: usize, done: bool) -> String {
        let (book, trades) = (&self.book, self.count());
        let verb = match trades {
            _ if !done => "would be",
            0 | 1 => "is",
            _ => "are",
        };
        match (&self.file, trades) {
            (None, _) => {
                let words = words::trade(&self.records[0]);
                format!("{book}: trade {first} {verb} added: {words}")
            }
            (_, 0) => format!("{book}: no trade {verb} added"),
            (_, 1) => format!("{book}: 1 trade {verb} added, at position {first}"),
            _ => {
                let last = first + trades - 1;
                let trades = count(trades, "trade");
                format!("{book}: {trades} {verb} added, at positions {first} to {last}")
            }
        }
    }

    /// Appends all of them to a book with these parts. Every one that is wrong
    /// is told, and those that look keyed twice.
    pub fn add_to(
        &self,
        book: &mut Book,
        parts: &accept::Book,
        again: bool,
    ) -> Result<Told, Ended> {
        let wrong = self.wrong(&parts.curves, |_, record| {
            book.append(self.day.date, record).map(drop)
        });
        self.told(&parts.trades, again).unless_wrong(wrong, again)
    }

    /// The margin of a book without and with them. None is added to it: the
    /// last is previewed on a copy that has the others.
    pub fn margins(&self, file: &BookFile) -> Result<Margins, Ended> {
        let before = file.margin()?;
        let (mut copy, mut after) = (file.book.clone(), before);
        let wrong = self.wrong(&file.parts.curves, |place, record| {
            if place + 1 < self.count() {
                return copy.append(self.day.date, record).map(drop);
            }
            after = copy.preview(self.day.date, record)?;
            Ok(())
        });
        if wrong.is_empty() {
            let day = self.day.date;
            return Ok(Margins { day, before, after });
        }
        Err(Ended::Refused(wrong))
    }

    /// All that is wrong with them, where each is given to the engine so.
    fn wrong(
        &self,
        curves: &[Curve],
        mut give: impl FnMut(usize, &Record) -> Result<(), Refusal>,
    ) -> Vec<String> {
        let mut refused = vec![];
        for (place, record) in self.records.iter().enumerate() {
            if let Err(refusal) = give(place, record) {
                refused.push((place, record_refused(record, curves, refusal)));
                if refusal.ground == Ground::BookSpace {
                    break;
                }
            }
        }
        let Some((name, file)) = &self.file else {
            let told = |(_, reason)| format!("{}: {reason}", self.book);
            return refused.into_iter().map(told).collect();
        };
        // every line that is wrong or whose trade is refused, in order
        let faults = file.faults.iter();
        let faults = faults.map(|fault| (fault.line.unwrap_or_default(), fault.to_string()));
        let refused = refused.into_iter().map(|(place, reason)| {
            let line = file.trades[place].line;
            (line, format!("line {line}, {reason}"))
        });
        let mut wrong: Vec<(u64, String)> = faults.chain(refused).collect();
        wrong.sort_by_key(|(line, _)| *line);
        let told = wrong.iter().map(|(_, fault)| format!("{name}: {fault}"));
        told.collect()
    }

    /// What is said of those that look keyed twice, beside the trades of a
    /// book; of a file that was imported before, unless that is meant, no more
    /// than this.
    pub fn told(&self, trades: &[Record], again: bool) -> Told {
        match self.imported_already(trades).filter(|_| !again) {
            Some(reason) => Told::refusing(reason),
            None => {
                let named = |trade: &Placed| self.named(trade, trades.len());
                Told::of(&doubles_among(trades, &self.records), named)
            }
        }
    }

    /// A trade of the book by its position, a new one by its line.
    fn named(&self, trade: &Placed, standing: usize) -> String {
        match (trade.position.checked_sub(standing), &self.file) {
            (None, _) => trade.to_string(),
            (Some(_), None) => "the new trade".into(),
            (Some(place), Some((name, file))) => {
                format!("line {} of {name}", file.trades[place].line)
            }
        }
    }

    /// Where the trades of a file stand in the book, if all of them do.
    fn imported_already(&self, trades: &[Record]) -> Option<String> {
        let (name, _) = self
            .file
            .as_ref()
            .filter(|(_, file)| file.faults.is_empty())?;
        let standing = stands_already(trades, &self.records)?;
        let words = "imported already: all its trades stand in";
        Some(format!("{name}: {words} {}, {standing}", self.book))
    }
}
