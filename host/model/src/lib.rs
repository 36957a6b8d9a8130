//! Second implementation of the cash flow margin, written from documents 01
//! and 02 alone. Simple before fast; the exact values of demand 3 are here as
//! well.

#![forbid(unsafe_code)]
#![deny(missing_docs)]

pub mod accept;
pub mod big;
pub mod bootstrap;
pub mod bounds;
pub mod calls;
pub mod curve;
pub mod discount;
pub mod edit;
pub mod exact;
pub mod explain;
pub mod fault;
mod field_rule;
mod fields;
pub mod flows;
pub mod list;
pub mod margin;
pub mod number;
mod rule_texts;
pub mod rules;
pub mod scenario;
pub mod search;
pub mod statement;
pub mod units;
pub mod valuation;
pub mod words;

pub use self::{
    accept::*, big::*, bootstrap::*, bounds::*, calls::*, curve::*, discount::*, edit::*, exact::*,
    explain::*, fault::*, flows::*, list::*, margin::*, number::*, rules::*, scenario::*,
    search::*, statement::*, units::*, valuation::*, words::*,
};
pub use calls::present_value;
pub(crate) use field_rule::*;
pub use seddolki_format::*;
