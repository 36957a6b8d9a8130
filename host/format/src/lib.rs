//! The forms of documents 01 and 02: the bytes of books, records, quotes and
//! reports, the limits of their fields, the size of a statement's page, dates,
//! and the grounds of refusal. No rule is tested here and nothing is valued.

#![forbid(unsafe_code)]

pub mod answer;
pub mod block;
pub mod date;
pub mod layout;
pub mod limits;
pub mod page;
pub mod quote;
pub mod record;
pub mod report;
pub mod text;

pub use self::{
    answer::*, block::*, date::*, layout::*, limits::*, page::*, quote::*, record::*, report::*,
};
