//! Files that are written beside others before they take a name.

use crate::Failure;
use std::ffi::OsStr;
use std::fs::{self, DirEntry, File, OpenOptions};
use std::io::{self, Read, Write};
use std::os::unix::ffi::OsStrExt;
use std::os::unix::fs::OpenOptionsExt;
use std::path::Path;
use tempfile::TempPath;

const PREFIX: &str = ".seddolki-";

/// Hexadecimal digits after the prefix: 128 bits.
const DIGITS: usize = 32;

/// A file without a name of its own yet. It is removed where it gets none.
pub(crate) struct Temporary {
    pub(crate) file: File,
    path: TempPath,
}

impl Temporary {
    /// A new file in a folder, with the bytes; the process's mask is taken
    /// from the mode.
    pub(crate) fn write(folder: &Path, mode: u32, bytes: &[u8]) -> io::Result<Temporary> {
        let path = folder.join(unguessable_name()?);
        let mut options = OpenOptions::new();
        let created = options.write(true).create_new(true).mode(mode).open(&path);
        let mut temporary = Temporary {
            file: created?,
            path: TempPath::from_path(path),
        };
        temporary.file.write_all(bytes)?;
        Ok(temporary)
    }

    /// Takes the place of another file.
    pub(crate) fn replace(self, target: &Path) -> io::Result<()> {
        Ok(self.path.persist(target)?)
    }

    /// Takes a name that no other file has.
    pub(crate) fn take_new_name(self, target: &Path) -> io::Result<()> {
        Ok(self.path.persist_noclobber(target)?)
    }
}

fn unguessable_name() -> io::Result<String> {
    let mut bits = [0; 16];
    File::open("/dev/urandom")?.read_exact(&mut bits)?;
    let number = u128::from_ne_bytes(bits);
    Ok(format!("{PREFIX}{number:0DIGITS$x}"))
}

/// Removes the temporary files of runs that were killed. Whoever holds the
/// folder's lock may: nobody else is writing there. What can't be removed stays.
pub(crate) fn remove_leftovers(folder: &Path) {
    let entries = fs::read_dir(folder).into_iter().flatten().flatten();
    for entry in entries.filter(is_leftover) {
        let _ = fs::remove_file(entry.path());
    }
}

fn is_leftover(entry: &DirEntry) -> bool {
    is_temporary_name(&entry.file_name()) && entry.file_type().is_ok_and(|kind| kind.is_file())
}

/// Refuses a file whose name the next edit would take for a leftover's.
pub(crate) fn refuse_temporary_name(given: &Path, file: &Path) -> Result<(), Failure> {
    let kept = file.file_name().is_some_and(is_temporary_name);
    Failure::when(kept, given, "has a name that is kept for temporary files")
}

fn is_temporary_name(name: &OsStr) -> bool {
    let is_digit = |byte: &u8| matches!(byte, b'0'..=b'9' | b'a'..=b'f');
    let digits = name.as_bytes().strip_prefix(PREFIX.as_bytes());
    digits.is_some_and(|digits| digits.len() == DIGITS && digits.iter().all(is_digit))
}
