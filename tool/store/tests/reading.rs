//! Reading: bounded, whatever is read.

mod common;

use common::{folder_with, make_fifo, open_folder, reason};
use seddolki_store::read_at_most;
use std::fs::{self, File};
use std::io::{ErrorKind, Write};
use std::path::Path;
use std::thread;

const MOST: usize = 100_000;

fn length(path: &Path) -> usize {
    let input = read_at_most(path, MOST).unwrap();
    // nor is room made for much more
    assert!(input.bytes.capacity() <= 4 * MOST);
    input.bytes.len()
}

#[test]
fn a_file_is_read_to_its_end_or_one_byte_more_than_the_most() {
    let (_folder, path) = folder_with("trades.csv", b"");
    for (size, expected) in [
        (0, 0),
        (1, 1),
        (MOST, MOST),
        (MOST + 1, MOST + 1),
        (MOST + 2, MOST + 1),
        (400_000_000, MOST + 1),
    ] {
        File::create(&path).unwrap().set_len(size as u64).unwrap();
        assert_eq!(length(&path), expected, "of {size} bytes");
    }
    fs::write(&path, b"kind,side\n").unwrap();
    let input = read_at_most(&path, usize::MAX).unwrap();
    assert_eq!(input.bytes, b"kind,side\n");
    assert_eq!(input.name, path.display().to_string());
}

#[test]
fn endless_devices_and_fifos_are_bounded() {
    assert_eq!(length(Path::new("/dev/zero")), MOST + 1);
    let folder = open_folder();
    let fifo = folder.path().join("fifo");
    make_fifo(&fifo);
    let writer = thread::spawn({
        let fifo = fifo.clone();
        move || {
            let mut fifo = File::options().write(true).open(fifo).unwrap();
            loop {
                if let Err(error) = fifo.write_all(&[7; 1000]) {
                    return error.kind();
                }
            }
        }
    });
    assert_eq!(length(&fifo), MOST + 1);
    // it was closed
    assert_eq!(writer.join().unwrap(), ErrorKind::BrokenPipe);
}

#[test]
fn what_cannot_be_read_is_told() {
    let folder = open_folder();
    let missing = folder.path().join("desk.book");
    assert_eq!(
        reason(read_at_most(&missing, MOST)),
        format!("{}: no such file or directory", missing.display())
    );
    assert_eq!(
        reason(read_at_most(folder.path(), MOST)),
        format!("{}: is a directory", folder.path().display())
    );
    assert_eq!(
        reason(read_at_most(Path::new(""), MOST)),
        "'': no such file or directory"
    );
    assert_eq!(
        reason(read_at_most(Path::new("a\nb\x1b[2J"), MOST)),
        "a\\nb\\x1b[2J: no such file or directory"
    );
}
