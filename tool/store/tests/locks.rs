//! The lock of a folder: who waits, for how long, and what is said.

mod common;

use common::{again, edit_to, folder_with, given, names, reason, state, AT_ONCE, MOST};
use seddolki_store::{create, edit, read_at_most, write_output, Failure, Patience};
use std::cell::RefCell;
use std::fs::{self, File};
use std::io::{self, BufRead, BufReader, Read};
use std::os::unix::fs::{symlink, MetadataExt};
use std::path::Path;
use std::process::Stdio;
use std::thread;
use std::time::{Duration, Instant};

const TEN_SECONDS: Duration = Duration::from_secs(10);

/// The lock as another command has it, until it is dropped.
fn hold(folder: &Path) -> File {
    let held = File::open(folder).unwrap();
    held.lock().unwrap();
    held
}

/// How a message names the process that holds a folder's lock.
fn process_in_message(folder: &Path, process: u32) -> String {
    let folder = fs::metadata(folder).unwrap();
    let (major, minor) = (folder.dev() >> 8 & 0xfff, folder.dev() & 0xff);
    let locked = format!(" {major:02x}:{minor:02x}:{} ", folder.ino());
    let locks = fs::read_to_string("/proc/locks").unwrap_or_default();
    // not all file systems tell their locks there, or by this number
    let told = locks
        .lines()
        .any(|line| line.contains(&format!(" {process} ")) && line.contains(&locked));
    if told {
        format!(" (process {process})")
    } else {
        String::new()
    }
}

fn append(book: &Path, byte: u8, patience: &Patience) -> Result<(), Failure> {
    edit(book, MOST, patience, |old| {
        Ok(([old, &[byte]].concat(), ()))
    })
}

#[test]
fn it_waits_until_the_lock_is_free_and_says_so() {
    let (folder, book) = folder_with("desk.book", b"old");
    let expected = format!(
        "{}: waiting up to 10 s for another command that is writing in {}",
        book.display(),
        folder.path().display()
    );
    let outputs = |name: &str| folder.path().join(name);
    fs::write(outputs("old.csv"), b"").unwrap();
    type Command<'a> = &'a dyn Fn(&Patience) -> Result<(), Failure>;
    let commands: [(&str, Command); 3] = [
        ("desk.book", &|patience| append(&book, b'!', patience)),
        ("new.book", &|patience| {
            create(&outputs("new.book"), b"", patience)
        }),
        ("old.csv", &|patience| {
            write_output(&outputs("old.csv"), b"", true, &[], patience)
        }),
    ];
    for (name, command) in commands {
        let held = RefCell::new(Some(hold(folder.path())));
        let process = process_in_message(folder.path(), std::process::id());
        let said = RefCell::new(Vec::new());
        let say = |line: &str| {
            said.borrow_mut().push(line.to_owned());
            held.take();
        };
        let patience = Patience {
            wait: TEN_SECONDS,
            say: &say,
        };
        assert!(command(&patience).is_ok());
        let expected = expected.replace("desk.book", name) + &process;
        assert_eq!(said.take(), [expected]);
    }
    assert_eq!(fs::read(&book).unwrap(), b"old!");
}

#[test]
fn after_the_time_it_gives_up() {
    let (folder, book) = folder_with("desk.book", b"old");
    let before = state(&book);
    let _held = hold(folder.path());
    let said = RefCell::new(0);
    let patience = Patience {
        wait: Duration::from_millis(250),
        say: &|_| *said.borrow_mut() += 1,
    };
    let start = Instant::now();
    let refused = reason(append(&book, b'!', &patience));
    assert!(start.elapsed() >= patience.wait);
    assert!(start.elapsed() < TEN_SECONDS);
    assert_eq!(
        refused,
        format!(
            "{}: waited 0.25 s for another command that is writing in {}{}",
            book.display(),
            folder.path().display(),
            process_in_message(folder.path(), std::process::id())
        )
    );
    assert_eq!(said.take(), 1);
    assert_eq!(state(&book), before);
    assert_eq!(names(folder.path()), ["desk.book"]);
}

#[test]
fn without_patience_nothing_is_said() {
    let (folder, book) = folder_with("desk.book", b"old");
    let _held = hold(folder.path());
    // it panics where something is said
    assert!(reason(edit_to(&book, b"new")).contains(": waited 0 s for another command"));
    let made = create(&folder.path().join("new.book"), b"", &AT_ONCE);
    assert!(reason(made).contains(": waited 0 s for another command"));
    assert_eq!(names(folder.path()), ["desk.book"]);
}

#[test]
fn a_reader_and_other_folders_do_not_wait() {
    let (folder, book) = folder_with("desk.book", b"old");
    let (_other_folder, other) = folder_with("other.book", b"old");
    let _held = hold(folder.path());
    assert_eq!(read_at_most(&book, MOST).unwrap().bytes, b"old");
    assert!(edit_to(&other, b"new").is_ok());
}

#[test]
fn another_process_is_named_and_its_edit_is_kept() {
    if let Some(book) = given() {
        let edited = edit(&book, MOST, &AT_ONCE, |old| {
            println!("\nchanging");
            io::stdin().read_to_end(&mut Vec::new()).unwrap();
            Ok::<_, Failure>(([old, b"1"].concat(), ()))
        });
        return assert!(edited.is_ok());
    }
    let (folder, book) = folder_with("desk.book", b"0");
    let mut command = again(another_process_is_named_and_its_edit_is_kept, &book);
    let command = command.stdin(Stdio::piped()).stdout(Stdio::piped());
    let mut child = command.spawn().unwrap();
    let mut lines = BufReader::new(child.stdout.take().unwrap()).lines();
    assert!(lines.any(|line| line.unwrap() == "changing"));
    let process = process_in_message(folder.path(), child.id());
    let input = RefCell::new(child.stdin.take());
    let say = |line: &str| {
        assert!(line.ends_with(&format!("{}{process}", folder.path().display())));
        input.take();
    };
    let patience = Patience {
        wait: TEN_SECONDS,
        say: &say,
    };
    assert!(append(&book, b'2', &patience).is_ok());
    assert!(input.take().is_none());
    assert!(child.wait().unwrap().success());
    assert_eq!(fs::read(&book).unwrap(), b"012");
}

#[test]
fn many_writers_lose_nothing() {
    const WRITERS: u8 = 4;
    const EDITS: usize = 20;
    let (folder, book) = folder_with("desk.book", b"");
    let (_elsewhere, link) = folder_with("link", b"");
    fs::remove_file(&link).unwrap();
    symlink(&book, &link).unwrap();
    let write = |writer: u8| {
        let patience = Patience {
            wait: Duration::from_secs(60),
            say: &|_| {},
        };
        // by two names of one book
        let path = if writer.is_multiple_of(2) {
            &book
        } else {
            &link
        };
        for _ in 0..EDITS {
            assert!(append(path, writer, &patience).is_ok());
        }
    };
    thread::scope(|scope| {
        for writer in 0..WRITERS {
            scope.spawn(move || write(writer));
        }
    });
    let bytes = fs::read(&book).unwrap();
    for writer in 0..WRITERS {
        let edits = bytes.iter().filter(|byte| **byte == writer).count();
        assert_eq!(edits, EDITS, "of writer {writer}");
    }
    assert_eq!(names(folder.path()), ["desk.book"]);
}

/// Why a command is refused if, while it waits, something is done to the files.
fn refused_while_waiting(
    folder: &Path,
    done: &dyn Fn(),
    command: &dyn Fn(&Patience) -> Result<(), Failure>,
) -> String {
    let held = RefCell::new(Some(hold(folder)));
    let say = |_: &str| {
        done();
        held.take();
    };
    let refused = reason(command(&Patience {
        wait: TEN_SECONDS,
        say: &say,
    }));
    assert!(held.take().is_none());
    refused
}

#[test]
fn what_is_moved_while_it_waits_is_refused() {
    let (folder, book) = folder_with("desk.book", b"old");
    let (other_folder, other) = folder_with("other.book", b"other");
    let link = other_folder.path().join("link");
    symlink(&book, &link).unwrap();
    let moved = "was moved while the lock was waited for";
    let linked_elsewhere = || {
        fs::remove_file(&link).unwrap();
        symlink(&other, &link).unwrap();
    };
    assert_eq!(
        refused_while_waiting(folder.path(), &linked_elsewhere, &|patience| {
            append(&link, b'!', patience)
        }),
        format!("{}: {moved}", link.display())
    );
    let below = folder.path().join("below");
    let inner = below.join("desk.book");
    fs::create_dir(&below).unwrap();
    fs::write(&inner, b"inner").unwrap();
    let another_folder = || {
        fs::rename(&below, folder.path().join("away")).unwrap();
        fs::create_dir(&below).unwrap();
        fs::write(&inner, b"another").unwrap();
    };
    assert_eq!(
        refused_while_waiting(&below, &another_folder, &|patience| {
            append(&inner, b'!', patience)
        }),
        format!("{}: {moved}", inner.display())
    );
    for (path, bytes) in [(&book, "old"), (&other, "other"), (&inner, "another")] {
        assert_eq!(fs::read(path).unwrap(), bytes.as_bytes());
    }
}

#[test]
fn what_becomes_an_input_while_it_waits_is_refused() {
    let (folder, output) = folder_with("out.csv", b"old");
    let book = folder.path().join("desk.book");
    fs::write(&book, b"book").unwrap();
    let input = read_at_most(&book, MOST).unwrap();
    let moved = || fs::rename(&book, &output).unwrap();
    assert_eq!(
        refused_while_waiting(folder.path(), &moved, &|patience| {
            write_output(&output, b"new", true, &[&input], patience)
        }),
        format!(
            "{}: is the same file as the input {}",
            output.display(),
            book.display()
        )
    );
    assert_eq!(fs::read(&output).unwrap(), b"book");
}

#[test]
fn what_appears_while_it_waits_is_not_replaced() {
    let (folder, book) = folder_with("desk.book", b"old");
    fs::remove_file(&book).unwrap();
    let made = || fs::write(&book, b"another's").unwrap();
    assert_eq!(
        refused_while_waiting(folder.path(), &made, &|patience| {
            create(&book, b"new", patience)
        }),
        format!("{}: exists already", book.display())
    );
    assert_eq!(fs::read(&book).unwrap(), b"another's");
}
