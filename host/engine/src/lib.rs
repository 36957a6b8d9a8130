//! The cash flow margin of one account's book.
//!
//! A [`Book`] owns the bytes of an account's curves and trades. It answers
//! whether they keep every rule, gives and takes single trades, lengthens a
//! curve by a bond's price, works out the margin, also as it would be with one
//! more trade, and writes the account statement. All of it is done by the
//! proved engine; this crate lends it bytes and gives its answers names.
//!
//! Money is in hundredths of the currency, rates and prices are in
//! millionths. What a cash flow is worth today is rounded to the nearest
//! hundredth, a half up, before its sign; sums are not rounded again.
//!
//! A book is for one day, its valuation day, and the days of its curves and
//! trades are counted from there. Calls that work out a margin, write a
//! statement or change the book are given the current day, and refuse a book
//! that is for another.
//!
//! ```no_run
//! use seddolki::{Book, Date};
//!
//! # fn main() -> Result<(), Box<dyn std::error::Error>> {
//! let today: Date = "2026-11-16".parse()?;
//! let book = Book::from_bytes(std::fs::read("account.book")?);
//! let report = book.margin(today)?;
//! for (currency, figures) in report.present_currencies() {
//!     println!("{currency} needs {} more", -figures.total);
//! }
//! # Ok(())
//! # }
//! ```
//!
//! Every call looks at the whole book first. Where a rule is broken it is
//! refused, and nothing changes:
//!
//! ```
//! use seddolki::{Book, Ground};
//!
//! let refusal = Book::from_bytes(vec![]).check().unwrap_err();
//! assert_eq!(refusal.ground, Ground::Length);
//! assert_eq!(refusal.ground.number(), 1);
//! ```

#![deny(unsafe_code)]
#![warn(missing_docs)]

mod book;
#[allow(unsafe_code)]
mod ffi;
mod value;

/// The calls as they are in C, over lent bytes. The caller lends the bytes, and
/// says how many of them the book uses; `day` is the current day. Every
/// statement fits in `PAGE` bytes.
pub mod lent {
    pub use crate::ffi::*;
    pub use seddolki_format::page::PAGE;
}

pub use book::Book;
pub use seddolki_format::date::NoDate;
pub use seddolki_format::quote::bond_of;
pub use seddolki_format::report::{CurrencyFigures, CurveFigures};
pub use seddolki_format::{Answer, Date, Ground, Quote, Record, Refusal, Report};
pub use value::{present_value, PresentValue};
