//! Files that the tool writes besides books.

use crate::arguments::Output;
use crate::ended::Ended;
use crate::files::{is_dash, patience};
use crate::printed::print;
use seddolki_store::{self as store, shown, Input};
use std::path::Path;

/// Writes a file, and never over one of the inputs.
pub fn write(
    path: &Path,
    bytes: impl AsRef<[u8]>,
    output: &Output,
    inputs: &[&Input],
) -> Result<(), Ended> {
    let patience = patience(output.waiting);
    let written = store::write_output(path, bytes.as_ref(), output.force, inputs, &patience);
    Ok(written?)
}

/// The same, and what the file holds is told, unless it is standard output.
pub fn write_told(
    path: &Path,
    bytes: impl AsRef<[u8]>,
    output: &Output,
    inputs: &[&Input],
    holds: &str,
) -> Result<(), Ended> {
    write(path, bytes, output, inputs)?;
    if !is_dash(path) {
        print::notice(&format!("{}: {holds}", shown(path)));
    }
    Ok(())
}

/// Where an option takes a file alone.
pub fn refuse_standard_output(path: &Path, option: &str) -> Result<(), Ended> {
    let reason = format!("{option} takes a file, and not standard output");
    Ended::misused(is_dash(path), &reason)
}
