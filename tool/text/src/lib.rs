//! Trades and curves as text: what is written is turned into records and
//! curves and back. No rule of a book is tested here beyond what is written;
//! limits are named in messages, and the engine judges by them.
//!
//! ```
//! use seddolki_text::trade::record_of;
//! use seddolki_text::{Column, Decimals};
//!
//! # fn main() -> Result<(), seddolki_text::Fault> {
//! let values = [
//!     (Column::find("kind")?, "pool repo"),
//!     (Column::find("side")?, "buyer"),
//!     (Column::find("repo_cash")?, "1,000.00"),
//! ];
//! let faults = record_of(&values, Decimals::Point).unwrap_err();
//! assert_eq!(
//!     faults[0].to_string(),
//!     "column side: buyer is not for a pool repo: repo or reverse repo"
//! );
//! # Ok(())
//! # }
//! ```

#![forbid(unsafe_code)]
#![warn(missing_docs)]

mod column;
mod columns;
mod csv_lines;
pub mod curve_file;
mod curve_reader;
pub mod decimal;
mod fault;
mod file_content;
mod help;
mod quantity;
mod separator;
pub mod template;
pub mod trade;
mod trade_words;
pub mod trades_file;
mod unknown_columns;

pub use column::{Column, Unit};
pub use columns::{bond_columns, trade_columns, COLUMNS};
pub use decimal::Decimals;
pub use fault::{shown, Fault};
pub use help::{meanings, USES};
pub use quantity::{numbers, Quantity};
pub use separator::Separator;
pub use trade_words::{a_trade_of, Word};
