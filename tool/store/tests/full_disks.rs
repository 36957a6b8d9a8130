//! Where there is no room: the book stays, and nothing is left.

mod common;

use common::{
    again, edit_to, folder_with, given, names, open_folder, reason, run, state, through_shell,
    AT_ONCE,
};
use seddolki_store::create;
use std::process::Command;
use tempfile::TempDir;

/// Longer than there is room for.
const TOO_LONG: &[u8] = &[7; 1 << 18];

#[test]
fn beyond_the_largest_file_none_is_left() {
    if let Some(book) = given() {
        for failure in [
            reason(edit_to(&book, TOO_LONG)),
            reason(create(&book.with_file_name("other"), TOO_LONG, &AT_ONCE)),
        ] {
            assert!(failure.ends_with(": file too large"), "{failure}");
        }
        return;
    }
    let (folder, book) = folder_with("desk.book", b"old");
    let before = state(&book);
    let limited = again(beyond_the_largest_file_none_is_left, &book);
    // in blocks of 512 bytes
    run(&mut through_shell("trap '' XFSZ; ulimit -f 64", limited));
    assert_eq!(state(&book), before);
    assert_eq!(names(folder.path()), ["desk.book"]);
}

/// A file system of four pages, until it is dropped. Where none can be mounted,
/// the feature `no-mount` has the test listed as ignored.
struct SmallDisk {
    folder: TempDir,
}

impl SmallDisk {
    fn mount() -> SmallDisk {
        let folder = open_folder();
        let mut mount = Command::new("mount");
        mount.args(["-t", "tmpfs", "-o", "size=16k", "tmpfs"]);
        run(mount.arg(folder.path()));
        SmallDisk { folder }
    }
}

impl Drop for SmallDisk {
    fn drop(&mut self) {
        let mut unmount = Command::new("umount");
        let unmounted = unmount.arg("-l").arg(self.folder.path()).status();
        assert!(unmounted.unwrap().success());
    }
}

#[test]
#[cfg_attr(feature = "no-mount", ignore = "said: nothing can be mounted here")]
fn on_a_full_disk_none_is_left() {
    let disk = SmallDisk::mount();
    let folder = disk.folder.path();
    let book = folder.join("desk.book");
    assert!(create(&book, b"old", &AT_ONCE).is_ok());
    let before = state(&book);
    for failure in [
        reason(edit_to(&book, TOO_LONG)),
        reason(create(&folder.join("other"), TOO_LONG, &AT_ONCE)),
    ] {
        assert!(failure.ends_with(": no space left on device"), "{failure}");
    }
    assert_eq!(state(&book), before);
    assert_eq!(names(folder), ["desk.book"]);
}
