//! Pictures of a curve and of the benchmark, as SVG text.
//!
//! Amounts are in hundredths and rates in millionths, as a book has them:
//! whole numbers, so that every picture can be drawn.

#![forbid(unsafe_code)]

mod by_day;
mod growth;
mod heading;
mod legend;
mod lengthened;
mod losses;
mod numbers;
mod page;
mod panel;
mod rates;
mod scale;
mod style;

pub use by_day::{DayFlows, Node};
pub use growth::Growth;
pub use heading::Heading;
pub use lengthened::Lengthened;
pub use losses::Losses;
pub use rates::Rates;
