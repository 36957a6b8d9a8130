//! The proved engine beside its second implementation.
//!
//! How many random books and calls are compared, and which, is set by the
//! environment: `SEDDOLKI_BOOKS`, `SEDDOLKI_CALLS` and `SEDDOLKI_SEED`. A run
//! that is not shorter than the default one has to reach every ground of
//! refusal and every form of trade.

#![forbid(unsafe_code)]

mod cases;
mod followed;
mod page;
mod settings;
mod unlike;

pub use cases::{margin_case, report_of, whole_case};
pub use followed::Followed;
pub use page::{read_page, Line};
pub use settings::{books, calls, is_whole, Seeds};
pub use unlike::assert_alike;
