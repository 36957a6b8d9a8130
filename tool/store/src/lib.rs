//! All of the tool's dealing with files: reading is bounded, and a file is
//! changed whole or not at all, under the lock of its folder.

#![forbid(unsafe_code)]

mod create;
mod existing_file;
mod failure;
mod input;
mod lock;
mod output;
mod path_display;
mod place;
mod temporary;

pub use create::create;
pub use existing_file::edit;
pub use failure::{in_sentence, Failure};
pub use input::{read_at_most, read_line, Input, STANDARD_INPUT};
pub use lock::Patience;
pub use output::{print, write_output};
pub use path_display::{is_hidden, shown};

use std::path::Path;

/// Whether a path stands for a standard stream.
fn is_standard_stream(path: &Path) -> bool {
    path == Path::new("-")
}

/// Where only a file will do.
fn refuse_standard_stream(path: &Path) -> Result<(), Failure> {
    let reason = "stands for no file here; ./- is the file of that name";
    Failure::when(is_standard_stream(path), path, reason)
}
