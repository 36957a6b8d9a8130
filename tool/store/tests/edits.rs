//! Edits: what a file keeps, and which files are refused.

mod common;

use common::{
    again_unprivileged, edit_to, folder_with, given, is_root, make_fifo, mode, names, reason, run,
    set_mode, state, Faults, AT_ONCE, MOST, NOBODY,
};
use seddolki_store::{edit, Failure, Patience};
use std::cell::{Cell, RefCell};
use std::fs;
use std::io;
use std::os::unix::fs::{chown, symlink, MetadataExt};
use std::os::unix::net::UnixListener;
use std::path::Path;
use std::thread::sleep;
use std::time::Duration;

#[test]
fn an_edit_gives_the_new_bytes_and_the_result() {
    let (folder, book) = folder_with("desk.book", b"old");
    let edited = edit(&book, MOST, &AT_ONCE, |old| {
        assert_eq!(old, b"old");
        Ok::<_, Failure>((b"longer than old".to_vec(), 7))
    });
    assert_eq!(edited.unwrap(), 7);
    assert_eq!(fs::read(&book).unwrap(), b"longer than old");
    assert_eq!(names(folder.path()), ["desk.book"]);
}

#[test]
fn a_refused_edit_leaves_the_file() {
    #[derive(Debug)]
    enum Refusal {
        File(Failure),
        Content,
    }
    impl From<Failure> for Refusal {
        fn from(failure: Failure) -> Refusal {
            Refusal::File(failure)
        }
    }
    let (folder, book) = folder_with("desk.book", b"old");
    let before = state(&book);
    let refused = edit(&book, MOST, &AT_ONCE, |_| {
        Err::<(Vec<u8>, ()), _>(Refusal::Content)
    });
    assert!(matches!(refused, Err(Refusal::Content)));
    assert_eq!(state(&book), before);
    assert_eq!(names(folder.path()), ["desk.book"]);
    let missing = folder.path().join("other.book");
    let failed = edit(&missing, MOST, &AT_ONCE, |_| {
        Ok::<_, Refusal>((Vec::new(), ()))
    });
    let Err(Refusal::File(failure)) = failed else {
        panic!("{failed:?}");
    };
    let expected = "no such file or directory";
    assert_eq!(
        failure.to_string(),
        format!("{}: {expected}", missing.display())
    );
}

#[test]
fn the_change_gets_one_byte_more_than_the_most() {
    let (_folder, book) = folder_with("desk.book", &[7; 100]);
    for (most, expected) in [(99, 100), (100, 100), (50, 51), (0, 1)] {
        let length = Cell::new(0);
        let edited = edit(&book, most, &AT_ONCE, |old| {
            length.set(old.len());
            Ok::<_, Failure>((vec![7; 100], ()))
        });
        assert!(edited.is_ok());
        assert_eq!(length.get(), expected, "of at most {most}");
    }
}

#[test]
fn mode_and_owner_stay() {
    let (_folder, book) = folder_with("desk.book", b"old");
    if is_root() {
        chown(&book, Some(NOBODY), Some(NOBODY - 1)).unwrap();
    }
    // with more than the usual mask allows, and less
    for bits in [0o666, 0o640, 0o200 | 0o400, 0o2770, 0o4755] {
        set_mode(&book, bits);
        let before = fs::metadata(&book).unwrap();
        assert!(edit_to(&book, b"new").is_ok());
        let after = fs::metadata(&book).unwrap();
        assert_eq!(mode(&book), bits);
        assert_eq!((after.uid(), after.gid()), (before.uid(), before.gid()));
    }
}

#[test]
fn a_read_only_book_is_refused_for_everybody() {
    let (_folder, book) = folder_with("desk.book", b"old");
    set_mode(&book, 0o444);
    let before = state(&book);
    let refused = reason(edit_to(&book, b"new"));
    // root could open it
    let expected = if is_root() {
        "is read-only"
    } else {
        "can't be opened for writing: permission denied"
    };
    assert_eq!(refused, format!("{}: {expected}", book.display()));
    assert_eq!(state(&book), before);
}

#[test]
fn a_book_that_its_user_may_not_write_is_refused() {
    if let Some(book) = given() {
        let refused = reason(edit_to(&book, b"new"));
        let expected = "can't be opened for writing: permission denied";
        assert_eq!(refused, format!("{}: {expected}", book.display()));
        return;
    }
    let (folder, book) = folder_with("desk.book", b"old");
    // root's, or one that its own user may not write
    set_mode(&book, if is_root() { 0o644 } else { 0o466 });
    let before = state(&book);
    let test = a_book_that_its_user_may_not_write_is_refused;
    run(&mut again_unprivileged(test, &book));
    assert_eq!(state(&book), before);
    assert_eq!(names(folder.path()), ["desk.book"]);
}

#[test]
fn where_the_owner_cannot_be_kept_nothing_is_written() {
    if let Some(book) = given() {
        let refused = reason(edit_to(&book, b"new"));
        let expected = "its owner and mode can't be kept: operation not permitted";
        assert_eq!(refused, format!("{}: {expected}", book.display()));
        return;
    }
    let test = where_the_owner_cannot_be_kept_nothing_is_written;
    let (folder, book) = folder_with("desk.book", b"old");
    set_mode(&book, 0o666);
    let before = state(&book);
    const NOT_PERMITTED: &str = "1";
    run(&mut Faults::build().again(test, &book, "fchown", NOT_PERMITTED));
    if is_root() {
        // nobody may write the file, and may not give one to root
        run(&mut again_unprivileged(test, &book));
    }
    assert_eq!(state(&book), before);
    assert_eq!(names(folder.path()), ["desk.book"]);
}

#[test]
fn where_the_mode_is_dropped_in_silence_nothing_is_written() {
    if let Some(book) = given() {
        let refused = reason(edit_to(&book, b"new"));
        let expected = "its owner and mode can't be kept: the system gives others";
        assert_eq!(refused, format!("{}: {expected}", book.display()));
        return;
    }
    let test = where_the_mode_is_dropped_in_silence_nothing_is_written;
    let (folder, book) = folder_with("desk.book", b"old");
    let before = state(&book);
    run(&mut Faults::build().again(test, &book, "fchmod", "0"));
    assert_eq!(state(&book), before);
    assert_eq!(names(folder.path()), ["desk.book"]);
}

#[test]
fn a_book_with_several_hard_links_is_refused() {
    let (folder, book) = folder_with("desk.book", b"old");
    fs::hard_link(&book, folder.path().join("other.book")).unwrap();
    let before = state(&book);
    assert_eq!(
        reason(edit_to(&book, b"new")),
        format!(
            "{}: has 2 hard links, and only one of them would be changed",
            book.display()
        )
    );
    assert_eq!(state(&book), before);
    assert_eq!(names(folder.path()), ["desk.book", "other.book"]);
}

#[test]
fn what_is_no_file_is_refused() {
    let (folder, _book) = folder_with("desk.book", b"old");
    let fifo = folder.path().join("fifo");
    make_fifo(&fifo);
    let socket = folder.path().join("socket");
    let _listener = UnixListener::bind(&socket).unwrap();
    let refused = |path: &Path| {
        let text = reason(edit_to(path, b"new"));
        text.strip_prefix(&format!("{}: ", path.display()))
            .map(str::to_owned)
    };
    let refused = |path: &Path| refused(path).unwrap();
    assert_eq!(refused(&fifo), "is a FIFO, not a file");
    assert_eq!(refused(&socket), "is a socket, not a file");
    assert_eq!(refused(folder.path()), "is a folder, not a file");
    assert_eq!(refused(Path::new("/dev/null")), "is a device, not a file");
    let missing = folder.path().join("missing");
    assert_eq!(refused(&missing), "no such file or directory");
    assert_eq!(
        refused(Path::new("-")),
        "stands for no file here; ./- is the file of that name"
    );
    assert_eq!(names(folder.path()), ["desk.book", "fifo", "socket"]);
}

#[test]
fn a_symbolic_link_to_a_book_stays_a_link() {
    let (folder, book) = folder_with("desk.book", b"old");
    let (elsewhere, link) = folder_with("link.book", b"");
    fs::remove_file(&link).unwrap();
    symlink(&book, &link).unwrap();
    assert!(edit_to(&link, b"new").is_ok());
    assert_eq!(fs::read_link(&link).unwrap(), book);
    assert!(fs::symlink_metadata(&book).unwrap().is_file());
    assert_eq!(fs::read(&book).unwrap(), b"new");
    assert_eq!(names(folder.path()), ["desk.book"]);
    assert_eq!(names(elsewhere.path()), ["link.book"]);
}

#[test]
fn what_fails_after_the_change_is_a_warning() {
    if let Some(book) = given() {
        let told = RefCell::new(vec![]);
        let patience = Patience {
            wait: Duration::ZERO,
            say: &|line| told.borrow_mut().push(line.to_owned()),
        };
        let change = |_: &[u8]| Ok::<_, Failure>((b"new".to_vec(), ()));
        edit(&book, MOST, &patience, change).unwrap();
        let due = format!(
            "{}: is written, but a power failure might undo it: \
             its folder can't be synced: input/output error",
            book.display()
        );
        return assert_eq!(told.take(), [due]);
    }
    let test = what_fails_after_the_change_is_a_warning;
    let (folder, book) = folder_with("desk.book", b"old");
    const INPUT_OUTPUT: &str = "5";
    run(&mut Faults::build().again(test, &book, "fsync folder", INPUT_OUTPUT));
    assert_eq!(fs::read(&book).unwrap(), b"new");
    assert_eq!(names(folder.path()), ["desk.book"]);
}

/// An edit in which another program, that knows of no lock, does something.
fn edit_while(book: &Path, other_program: impl FnOnce()) -> String {
    let refused = edit(book, MOST, &AT_ONCE, |_| {
        // longer than the clock of old file systems ticks
        sleep(Duration::from_millis(20));
        other_program();
        Ok::<_, Failure>((b"new".to_vec(), ()))
    });
    reason(refused)
}

#[test]
fn what_another_program_writes_meanwhile_is_not_lost() {
    let (folder, book) = folder_with("desk.book", b"old");
    let changed = format!(
        "{}: was changed meanwhile by another program",
        book.display()
    );
    let written = || fs::write(&book, b"the").unwrap();
    assert_eq!(edit_while(&book, written), changed);
    assert_eq!(fs::read(&book).unwrap(), b"the");
    let other = folder.path().join("other");
    let replaced = || {
        fs::write(&other, b"the other's").unwrap();
        fs::rename(&other, &book).unwrap();
    };
    assert_eq!(edit_while(&book, replaced), changed);
    assert_eq!(fs::read(&book).unwrap(), b"the other's");
    assert_eq!(names(folder.path()), ["desk.book"]);
}

/// An access list as the system stores it: the owner and user 1000 may read
/// and write, the owning group and others may nothing.
fn access_list() -> Vec<u8> {
    let entries = [
        (1, 6, !0),
        (2, 6, 1000),
        (4, 0, !0),
        (16, 6, !0),
        (32, 0, !0),
    ];
    let mut bytes = 2_u32.to_le_bytes().to_vec();
    for (tag, rights, user) in entries {
        bytes.extend(u16::to_le_bytes(tag));
        bytes.extend(u16::to_le_bytes(rights));
        bytes.extend(u32::to_le_bytes(user));
    }
    bytes
}

/// Whether the test's file system takes the attribute.
fn is_given(path: &Path, name: &str, value: &[u8]) -> bool {
    let given = xattr::set(path, name, value);
    let unknown = |error: &io::Error| error.kind() == io::ErrorKind::Unsupported;
    assert!(
        given.as_ref().is_ok() || given.as_ref().is_err_and(unknown),
        "{given:?}"
    );
    given.is_ok()
}

#[test]
fn access_lists_and_attributes_stay() {
    let (_folder, book) = folder_with("desk.book", b"old");
    let mut kept = vec![
        ("user.note", b"checked".to_vec()),
        ("system.posix_acl_access", access_list()),
    ];
    kept.retain(|(name, value)| is_given(&book, name, value));
    let before = mode(&book);
    edit_to(&book, b"new").unwrap();
    assert_eq!(
        (fs::read(&book).unwrap(), mode(&book)),
        (b"new".to_vec(), before)
    );
    for (name, value) in kept {
        assert_eq!(xattr::get(&book, name).unwrap(), Some(value), "{name}");
    }
}

#[test]
fn a_folder_s_access_list_does_not_come_to_its_books() {
    let (folder, book) = folder_with("desk.book", b"old");
    is_given(folder.path(), "system.posix_acl_default", &access_list());
    edit_to(&book, b"new").unwrap();
    let list = xattr::list(&book).unwrap();
    let lists: Vec<_> = list
        .filter(|name| name == "system.posix_acl_access")
        .collect();
    assert!(lists.is_empty(), "{lists:?}");
}
