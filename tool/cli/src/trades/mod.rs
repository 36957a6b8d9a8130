//! Trades that are keyed, added, refused, doubled, and put in words.

mod columns;
mod doubles;
mod flow_kind;
mod new_trades;
mod refusal;
mod term_payments;
pub mod words;

pub use columns::{cells, faults_told, named_values};
pub use doubles::Told;
pub use flow_kind::{flows_of, signed, FlowKind};
pub use new_trades::NewTrades;
pub use refusal::{book_refused, by_ground, quote_refused, record_refused, where_and_why};
pub use term_payments::TermPayments;
