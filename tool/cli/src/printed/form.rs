//! The form in which tables are printed.

use crate::ended::Ended;
use crate::printed::{csv, json, print, Table};
use clap::Args;
use seddolki_text::decimal::Decimals;

/// For people, unless one of these is said.
#[derive(Args, Clone, Copy, Debug)]
pub struct Form {
    /// Print JSON: an object with an array for each table
    #[arg(long, conflicts_with_all = ["csv", "semicolon"])]
    json: bool,
    /// Print CSV: commas between values, and decimal points
    #[arg(long, conflicts_with = "semicolon")]
    csv: bool,
    /// Print CSV with semicolons between values, and decimal commas
    #[arg(long)]
    semicolon: bool,
}

impl Form {
    /// Prints the tables, or, for people, the text that is made of them.
    pub fn print<const N: usize>(
        self,
        tables: &[Table; N],
        text: impl FnOnce(&[Table; N]) -> String,
    ) -> Result<(), Ended> {
        print::result(&self.written(tables, text))
    }

    /// What is to be printed of the tables.
    pub fn written<const N: usize>(
        self,
        tables: &[Table; N],
        text: impl FnOnce(&[Table; N]) -> String,
    ) -> String {
        if self.json {
            json(tables)
        } else if self.csv {
            csv(tables, Decimals::Point)
        } else if self.semicolon {
            csv(tables, Decimals::Comma)
        } else {
            text(tables)
        }
    }
}
