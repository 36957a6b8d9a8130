//! Making a new file.

use crate::failure::words;
use crate::place::Place;
use crate::{refuse_standard_stream, Failure, Patience};
use std::fs;
use std::io::ErrorKind;
use std::path::Path;

/// Makes a file that is not there yet: it appears whole or not at all, and
/// never in another file's place.
pub fn create(path: &Path, bytes: &[u8], patience: &Patience) -> Result<(), Failure> {
    refuse_standard_stream(path)?;
    let place = Place::of_new(path, patience)?;
    if let Ok(found) = fs::symlink_metadata(&place.target) {
        let dangling = found.is_symlink() && fs::metadata(&place.target).is_err();
        let reason = if dangling {
            "is a link to a file that is not there"
        } else {
            "exists already"
        };
        return Err(Failure::new(path, reason));
    }
    let temporary = place.write_beside(0o666, bytes)?;
    place.sync(&temporary)?;
    let named = temporary.take_new_name(&place.target);
    named.map_err(|error| match error.kind() {
        // the folder is writable, or there would be no temporary file
        ErrorKind::PermissionDenied | ErrorKind::Unsupported => Failure::new(
            path,
            "can't be made here: without hard links, which this file system \
             does not have, it could replace another file",
        ),
        _ => Failure::new(path, words(&error)),
    })?;
    place.finish();
    Ok(())
}
