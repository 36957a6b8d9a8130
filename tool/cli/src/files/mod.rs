//! Books and texts in files.

mod books;
mod curve_files;
pub mod outputs;

pub use books::*;
pub use curve_files::{book_of, read_curves};
