//! What is printed, for people and for programs.

mod form;
pub mod pdf;
pub mod print;
mod progress;
mod question;
mod table;

pub use form::Form;
pub use progress::over_books;
pub use question::is_answered_yes;
pub use table::{csv, json, Table, Value};

/// Whose book it is, and for which day.
pub fn account_on(account: u32, day: seddolki::Date) -> String {
    format!("account {account}, valuation day {}", day.in_words())
}
