//! Where a command's output goes.

use crate::existing_file::{refuse_other_kinds, ExistingFile};
use crate::{create, is_standard_stream, Failure, Input, Patience};
use std::fs::{self, File, Metadata, OpenOptions};
use std::io::{self, ErrorKind, Write};
use std::os::fd::AsFd;
use std::os::unix::fs::FileTypeExt;
use std::path::Path;

/// Writes an output: to a new file, over a file if forced and none of the
/// inputs, or through to `-` (standard output), a FIFO or a device.
pub fn write_output(
    path: &Path,
    bytes: &[u8],
    force: bool,
    inputs: &[&Input],
    patience: &Patience,
) -> Result<(), Failure> {
    if is_standard_stream(path) {
        // an input that it goes to was refused when it was read
        return print(bytes);
    }
    let found = match fs::metadata(path) {
        Err(error) if error.kind() == ErrorKind::NotFound => {
            return create(path, bytes, patience);
        }
        found => found.map_err(Failure::of(path))?,
    };
    if is_stream(&found) {
        return write_stream(path, bytes, inputs);
    }
    refuse_other_kinds(path, &found)?;
    refuse_input(path, &found, inputs)?;
    Failure::when(!force, path, "exists already; --force writes over it")?;
    let existing = ExistingFile::open(path, patience)?;
    // by now it may be another one
    refuse_input(path, &existing.metadata, inputs)?;
    existing.replace(bytes)
}

/// Writes to standard output. A reader that closes its end early wants no
/// more, and that is no failure.
pub fn print(bytes: &[u8]) -> Result<(), Failure> {
    let name = Path::new("standard output");
    // what was printed before comes before
    let flushed = io::stdout().flush();
    let stream = flushed.and_then(|()| io::stdout().as_fd().try_clone_to_owned());
    write_through(name, File::from(stream.map_err(Failure::of(name))?), bytes)
}

fn is_stream(found: &Metadata) -> bool {
    let kind = found.file_type();
    kind.is_fifo() || kind.is_char_device() || kind.is_block_device()
}

/// Writes to a FIFO or a device.
fn write_stream(path: &Path, bytes: &[u8], inputs: &[&Input]) -> Result<(), Failure> {
    let opened = OpenOptions::new().write(true).open(path);
    let stream = opened.map_err(Failure::of(path))?;
    let metadata = stream.metadata().map_err(Failure::of(path))?;
    let reason = "was replaced meanwhile by another program";
    Failure::when(!is_stream(&metadata), path, reason)?;
    refuse_input(path, &metadata, inputs)?;
    write_through(path, stream, bytes)
}

fn write_through(name: &Path, mut stream: File, bytes: &[u8]) -> Result<(), Failure> {
    match stream.write_all(bytes) {
        Err(error) if error.kind() != ErrorKind::BrokenPipe => Err(Failure::of(name)(error)),
        _ => Ok(()),
    }
}

fn refuse_input(name: &Path, output: &Metadata, inputs: &[&Input]) -> Result<(), Failure> {
    match inputs.iter().find(|input| input.is(output)) {
        Some(input) => {
            let reason = format!("is the same file as the input {}", input.name);
            Err(Failure::new(name, reason))
        }
        None => Ok(()),
    }
}
