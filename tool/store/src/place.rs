//! Where a file is or is to be, with its folder locked.

use crate::failure::words;
use crate::input::identity;
use crate::temporary::{refuse_temporary_name, remove_leftovers, Temporary};
use crate::{shown, Failure, Patience};
use std::fs::{self, File};
use std::io;
use std::os::unix::ffi::OsStrExt;
use std::path::{Path, PathBuf};

/// A file's place: as long as this lives, no other command writes in its
/// folder.
pub(crate) struct Place<'a> {
    /// The path as the user gave it.
    pub(crate) given: &'a Path,
    /// The path through all links.
    pub(crate) target: PathBuf,
    folder: File,
    /// Where a warning goes.
    say: &'a dyn Fn(&str),
}

/// Follows the links of a path.
type Resolve = fn(&Path) -> io::Result<PathBuf>;

impl<'a> Place<'a> {
    /// The place of a file that is there.
    pub(crate) fn of_existing(given: &'a Path, patience: &Patience<'a>) -> Result<Self, Failure> {
        Place::lock(given, |path| fs::canonicalize(path), patience)
    }

    /// The place of a file that is to be there.
    pub(crate) fn of_new(given: &'a Path, patience: &Patience<'a>) -> Result<Self, Failure> {
        Place::lock(given, resolve_new, patience)
    }

    fn lock(given: &'a Path, resolve: Resolve, patience: &Patience<'a>) -> Result<Self, Failure> {
        let target = resolve(given).map_err(Failure::of(given))?;
        refuse_temporary_name(given, &target)?;
        let opened = File::open(folder_of(&target));
        let folder = opened.map_err(Failure::because(given, "its folder can't be opened"))?;
        patience.lock(given, folder_of(&target), &folder)?;
        let place = Place {
            given,
            target,
            folder,
            say: patience.say,
        };
        let named = place.is_still_named(resolve).map_err(Failure::of(given))?;
        Failure::when(!named, given, "was moved while the lock was waited for")?;
        remove_leftovers(folder_of(&place.target));
        Ok(place)
    }

    /// Whether the path still leads to this place in the folder that is locked.
    fn is_still_named(&self, resolve: Resolve) -> io::Result<bool> {
        let folder = fs::metadata(folder_of(&self.target))?;
        let locked = self.folder.metadata()?;
        Ok(resolve(self.given)? == self.target && identity(&folder) == identity(&locked))
    }

    /// A temporary file beside it, with the bytes.
    pub(crate) fn write_beside(&self, mode: u32, bytes: &[u8]) -> Result<Temporary, Failure> {
        let folder = folder_of(&self.target);
        let what = format!("can't be written in {}", shown(folder));
        Temporary::write(folder, mode, bytes).map_err(Failure::because(self.given, &what))
    }

    /// Waits until a temporary file is on the disk.
    pub(crate) fn sync(&self, temporary: &Temporary) -> Result<(), Failure> {
        let synced = temporary.file.sync_all();
        synced.map_err(Failure::because(self.given, "can't be synced"))
    }

    /// What is left to do when the file has its new bytes and its name.
    pub(crate) fn finish(&self) {
        if let Err(error) = self.folder.sync_all() {
            let (name, words) = (shown(self.given), words(&error));
            let reason =
                "is written, but a power failure might undo it: its folder can't be synced";
            (self.say)(&format!("{name}: {reason}: {words}"));
        }
    }
}

impl Drop for Place<'_> {
    /// Closing is not enough where a process that another thread has just
    /// started still has the folder open.
    fn drop(&mut self) {
        let _ = self.folder.unlock();
    }
}

/// The last name of a path is new, what is before it is not.
fn resolve_new(path: &Path) -> io::Result<PathBuf> {
    let name = path.file_name().filter(|name| {
        // `folder/` and `folder/.` end in no name
        path.as_os_str().as_bytes().ends_with(name.as_bytes())
    });
    let name = name.ok_or(io::ErrorKind::IsADirectory)?;
    Ok(fs::canonicalize(folder_of(path))?.join(name))
}

fn folder_of(path: &Path) -> &Path {
    let parent = path.parent().filter(|parent| *parent != Path::new(""));
    parent.unwrap_or(Path::new("."))
}
