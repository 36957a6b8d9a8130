//! Books, records, quotes and calls drawn at random, the same from the same seed,
//! and the books of document 01's examples.

#![forbid(unsafe_code)]

mod book;
mod bootstrap;
mod call;
mod case;
pub mod curve;
mod damage;
mod day;
mod draw;
mod ending;
mod exactness;
mod examples;
mod halves;
mod largest;
mod listed_enum;
mod many_days;
mod near_ties;
mod payment_days;
mod preview;
mod quote;
mod quote_damage;
mod record;
mod record_damage;
mod repo;
mod repo_case;
mod spoiled;
mod statement;
mod tally;
mod timing;

pub(crate) use spoiled::*;

pub use self::{
    book::*, bootstrap::*, call::*, case::*, curve::*, damage::*, day::*, draw::*, ending::*,
    exactness::*, examples::*, halves::*, largest::*, many_days::*, near_ties::*, payment_days::*,
    preview::*, quote::*, quote_damage::*, record::*, record_damage::*, repo::*, repo_case::*,
    statement::*, tally::*, timing::*,
};
