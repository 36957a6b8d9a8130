//! Two books beside each other.

mod differences;
mod margins;

pub use differences::differences;
pub use margins::Margins;
