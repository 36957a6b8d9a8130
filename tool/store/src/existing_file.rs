//! A file that is there, and what takes its place.

use crate::input::{bytes_of, identity, refuse_standard_output, Identity};
use crate::place::Place;
use crate::{refuse_standard_stream, Failure, Patience};
use std::ffi::OsString;
use std::fs::{self, File, Metadata, OpenOptions};
use std::io;
use std::os::unix::fs::{fchown, FileTypeExt, MetadataExt};
use std::path::Path;
use xattr::FileExt;

/// A regular file that its user may write, with its folder locked.
pub(crate) struct ExistingFile<'a> {
    place: Place<'a>,
    file: File,
    pub(crate) metadata: Metadata,
}

impl<'a> ExistingFile<'a> {
    /// Refuses what can't be replaced as it should.
    pub(crate) fn open(path: &'a Path, patience: &Patience<'a>) -> Result<Self, Failure> {
        let failed = |error| Failure::because(path, "can't be opened for writing")(error);
        // what is not a regular file is not even opened
        let found = fs::metadata(path).map_err(Failure::of(path))?;
        refuse_other_kinds(path, &found)?;
        let place = Place::of_existing(path, patience)?;
        let mut options = OpenOptions::new();
        let opened = options.read(true).write(true).open(&place.target);
        let file = opened.map_err(failed)?;
        let metadata = file.metadata().map_err(failed)?;
        refuse_other_kinds(path, &metadata)?;
        refuse_links_and_read_only(path, &metadata)?;
        refuse_standard_output(path, &metadata)?;
        Ok(ExistingFile {
            place,
            file,
            metadata,
        })
    }

    /// At most so many bytes of it and one more.
    pub(crate) fn read(&self, most: usize) -> Result<Vec<u8>, Failure> {
        bytes_of(&self.file, most).map_err(Failure::because(self.place.given, "can't be read"))
    }

    /// Puts a new file with the same owner, group and mode in its place.
    pub(crate) fn replace(self, bytes: &[u8]) -> Result<(), Failure> {
        let given = self.place.given;
        let temporary = self.place.write_beside(0o600, bytes)?;
        keep_owner_and_mode(&self.metadata, &temporary.file)
            .map_err(Failure::because(given, "its owner and mode can't be kept"))?;
        keep_attributes(&self.file, &temporary.file).map_err(Failure::because(
            given,
            "its access list and attributes can't be kept",
        ))?;
        self.place.sync(&temporary)?;
        self.refuse_change_meanwhile()?;
        temporary
            .replace(&self.place.target)
            .map_err(Failure::because(given, "can't be replaced"))?;
        self.place.finish();
        Ok(())
    }

    /// Other programs do not know of the lock.
    fn refuse_change_meanwhile(&self) -> Result<(), Failure> {
        let found = fs::symlink_metadata(&self.place.target);
        let found = found.map_err(Failure::of(self.place.given))?;
        let changed = state(&found) != state(&self.metadata);
        let reason = "was changed meanwhile by another program";
        Failure::when(changed, self.place.given, reason)
    }
}

/// Changes a file. `change` gets its bytes, at most so many and one more, and
/// gives the new ones; where it gives an error, the file stays. No other
/// command writes in the file's folder meanwhile, nor may `change`.
pub fn edit<T, E: From<Failure>>(
    path: &Path,
    most: usize,
    patience: &Patience,
    change: impl FnOnce(&[u8]) -> Result<(Vec<u8>, T), E>,
) -> Result<T, E> {
    refuse_standard_stream(path)?;
    let existing = ExistingFile::open(path, patience)?;
    let (bytes, result) = change(&existing.read(most)?)?;
    existing.replace(&bytes)?;
    Ok(result)
}

/// Whatever changes a file changes this.
fn state(file: &Metadata) -> (Identity, u64, i64, i64) {
    (identity(file), file.len(), file.ctime(), file.ctime_nsec())
}

/// Gives a file the extended attributes of another, access lists among them,
/// and no others.
fn keep_attributes(old: &File, new: &File) -> io::Result<()> {
    let kept = attributes(old)?;
    for name in attributes(new)? {
        if !kept.contains(&name) {
            new.remove_xattr(name)?;
        }
    }
    for name in kept {
        let value = old.get_xattr(&name)?.unwrap_or_default();
        if new.get_xattr(&name)?.as_ref() != Some(&value) {
            new.set_xattr(&name, &value)?;
        }
    }
    Ok(())
}

/// The names of a file's extended attributes; none where its file system
/// knows of none.
fn attributes(file: &File) -> io::Result<Vec<OsString>> {
    match file.list_xattr() {
        Ok(names) => Ok(names.collect()),
        Err(error) if error.kind() == io::ErrorKind::Unsupported => Ok(vec![]),
        Err(error) => Err(error),
    }
}

fn keep_owner_and_mode(old: &Metadata, new: &File) -> io::Result<()> {
    let kept = |file: &Metadata| (file.uid(), file.gid(), file.mode());
    fchown(new, Some(old.uid()), Some(old.gid()))?;
    new.set_permissions(old.permissions())?;
    // a system may drop a bit in silence
    if kept(&new.metadata()?) == kept(old) {
        Ok(())
    } else {
        Err(io::Error::other("the system gives others"))
    }
}

fn refuse_links_and_read_only(path: &Path, file: &Metadata) -> Result<(), Failure> {
    Failure::when(file.mode() & 0o222 == 0, path, "is read-only")?;
    let links = file.nlink();
    let reason = format!("has {links} hard links, and only one of them would be changed");
    Failure::when(links > 1, path, reason)
}

/// Refuses all but regular files.
pub(crate) fn refuse_other_kinds(path: &Path, found: &Metadata) -> Result<(), Failure> {
    let kind = found.file_type();
    let name = match kind {
        _ if kind.is_file() => return Ok(()),
        _ if kind.is_dir() => "folder",
        _ if kind.is_socket() => "socket",
        _ if kind.is_fifo() => "FIFO",
        _ => "device",
    };
    Err(Failure::new(path, format!("is a {name}, not a file")))
}
