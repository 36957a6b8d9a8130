//! Reading, with a bound.

use crate::temporary::refuse_temporary_name;
use crate::{is_standard_stream, shown, Failure};
use std::fs::{File, Metadata};
use std::io::{self, Read};
use std::os::fd::AsFd;
use std::os::unix::fs::{FileTypeExt, MetadataExt};
use std::path::Path;

/// The name of standard input in messages.
pub const STANDARD_INPUT: &str = "standard input";

/// What a command has read, and which file it was.
#[derive(Debug)]
pub struct Input {
    /// Its name as messages show it.
    pub name: String,
    /// Its bytes, one more than asked for where it is longer.
    pub bytes: Vec<u8>,
    file: Option<Identity>,
}

/// A device and an inode on it: one file, whatever its names.
pub(crate) type Identity = (u64, u64);

impl Input {
    /// Whether it was read from that file.
    pub(crate) fn is(&self, file: &Metadata) -> bool {
        self.file == Some(identity(file))
    }
}

pub(crate) fn identity(file: &Metadata) -> Identity {
    (file.dev(), file.ino())
}

/// What keeps its bytes, and would lose them to an output; a terminal, a FIFO
/// or a device like it would not.
fn stored(file: &Metadata) -> Option<Identity> {
    let kind = file.file_type();
    (kind.is_file() || kind.is_block_device()).then(|| identity(file))
}

/// Reads a file, a FIFO, a device or, from `-`, standard input: at most so
/// many bytes and one more, which tells that there are too many.
pub fn read_at_most(path: &Path, most: usize) -> Result<Input, Failure> {
    let (name, opened) = if is_standard_stream(path) {
        (Path::new(STANDARD_INPUT), standard_input())
    } else {
        (path, File::open(path))
    };
    refuse_temporary_name(name, name)?;
    let file = opened.map_err(Failure::of(name))?;
    let metadata = file.metadata().map_err(Failure::of(name))?;
    refuse_standard_output(name, &metadata)?;
    Ok(Input {
        name: shown(name),
        bytes: bytes_of(&file, most).map_err(Failure::of(name))?,
        file: stored(&metadata),
    })
}

/// Reads a line of standard input with its end, at most so many bytes of it.
/// What follows is left to whoever reads next.
pub fn read_line(most: usize) -> Result<Vec<u8>, Failure> {
    let failed = Failure::of(Path::new(STANDARD_INPUT));
    let input = standard_input().map_err(&failed)?;
    let mut line = vec![];
    while line.len() < most && !line.ends_with(b"\n") {
        if (&input).take(1).read_to_end(&mut line).map_err(&failed)? == 0 {
            break;
        }
    }
    Ok(line)
}

fn standard_input() -> io::Result<File> {
    io::stdin().as_fd().try_clone_to_owned().map(File::from)
}

/// Refuses a file that standard output goes to, and would be printed into.
pub(crate) fn refuse_standard_output(name: &Path, file: &Metadata) -> Result<(), Failure> {
    let opened = io::stdout().as_fd().try_clone_to_owned().map(File::from);
    let printed = opened.and_then(|opened| opened.metadata());
    let printed = printed.ok().as_ref().and_then(stored);
    let same = printed.is_some() && printed == stored(file);
    Failure::when(same, name, "is the file that standard output goes to")
}

/// At most so many bytes and one more.
pub(crate) fn bytes_of(file: &File, most: usize) -> io::Result<Vec<u8>> {
    let mut bytes = Vec::new();
    let bound = (most as u64).saturating_add(1);
    file.take(bound).read_to_end(&mut bytes)?;
    Ok(bytes)
}
