//! `-`: standard input and output. Run again, this program copies an input to
//! an output, so that nothing else is on its streams.

mod common;

use common::{folder_with, given, state, AT_ONCE};
use seddolki_store::{read_at_most, read_line, write_output, Failure};
use std::fs::{self, File};
use std::io::{Seek, Write};
use std::path::Path;
use std::process::{exit, Command, Output, Stdio};

/// It reads at most so many bytes, and one more.
const MOST: usize = 10;

fn main() {
    if std::env::var_os("LINE").is_some() {
        let line = read_line(MOST).unwrap();
        std::io::stdout().write_all(&line).unwrap();
        return;
    }
    if let Some(output) = given() {
        let input = std::env::var_os("INPUT").unwrap();
        if let Err(failure) = copy(Path::new(&input), &output) {
            eprint!("{failure}");
            exit(3);
        }
        return;
    }
    an_input_goes_through_from_pipe_to_pipe();
    standard_input_is_bounded();
    a_line_is_read_and_what_follows_is_left();
    standard_output_may_be_a_file();
    a_full_standard_output_is_told_and_a_closed_one_wants_no_more();
    standard_output_is_no_input();
    an_output_is_not_standard_input();
    a_device_may_be_both();
}

fn copy(input: &Path, output: &Path) -> Result<(), Failure> {
    let input = read_at_most(input, MOST)?;
    // in the program's buffer until then
    print!("{}", std::env::var("BEFORE").unwrap_or_default());
    write_output(output, &input.bytes, true, &[&input], &AT_ONCE)
}

fn copier(input: &str, output: &str) -> Command {
    let mut command = Command::new("/proc/self/exe");
    command.env("INPUT", input).env("STORE_TEST_PATH", output);
    command
}

fn assert_failed(output: Output, expected: &str) {
    assert_eq!(output.status.code(), Some(3), "{output:?}");
    assert_eq!(String::from_utf8(output.stderr).unwrap(), expected);
}

fn an_input_goes_through_from_pipe_to_pipe() {
    let mut command = copier("-", "-");
    let command = command.env("BEFORE", "before ");
    let command = command.stdin(Stdio::piped()).stdout(Stdio::piped());
    let mut child = command.spawn().unwrap();
    child.stdin.take().unwrap().write_all(b"trades").unwrap();
    let output = child.wait_with_output().unwrap();
    assert!(output.status.success());
    assert_eq!(output.stdout, b"before trades");
}

fn standard_input_is_bounded() {
    let (_folder, path) = folder_with("trades.csv", &[b'x'; 1000]);
    let mut file = File::open(&path).unwrap();
    let mut command = copier("-", "-");
    let output = command.stdin(file.try_clone().unwrap()).output().unwrap();
    assert_eq!(output.stdout, b"xxxxxxxxxxx");
    // what follows is left to whoever reads next
    assert_eq!(file.stream_position().unwrap(), MOST as u64 + 1);
}

fn a_line_is_read_and_what_follows_is_left() {
    let (_folder, path) = folder_with("answers", b"y\nno\n\n0123456789 and more");
    let file = File::open(&path).unwrap();
    for line in ["y\n", "no\n", "\n", "0123456789", " and more", "", ""] {
        let mut command = Command::new("/proc/self/exe");
        let command = command.env("LINE", "").stdin(file.try_clone().unwrap());
        let output = command.output().unwrap();
        assert!(output.status.success(), "{output:?}");
        assert_eq!(output.stdout, line.as_bytes());
    }
}

fn standard_output_may_be_a_file() {
    let (folder, path) = folder_with("trades.csv", b"trades");
    let mut out = File::create_new(folder.path().join("out.csv")).unwrap();
    out.write_all(b"header ").unwrap();
    let mut command = copier(path.to_str().unwrap(), "-");
    assert!(command.stdout(out).status().unwrap().success());
    let written = fs::read(folder.path().join("out.csv")).unwrap();
    assert_eq!(written, b"header trades");
}

fn a_full_standard_output_is_told_and_a_closed_one_wants_no_more() {
    let full = File::options().write(true).open("/dev/full").unwrap();
    let mut command = copier("/dev/zero", "-");
    assert_failed(
        command.stdout(full).output().unwrap(),
        "standard output: no space left on device",
    );
    let (reader, writer) = std::io::pipe().unwrap();
    drop(reader);
    let mut command = copier("/dev/zero", "-");
    assert!(command.stdout(writer).status().unwrap().success());
}

fn standard_output_is_no_input() {
    let (_folder, path) = folder_with("desk.book", b"old");
    let name = path.to_str().unwrap();
    let before = state(&path);
    let appended = File::options().append(true).open(&path).unwrap();
    let output = copier(name, "-").stdout(appended).output().unwrap();
    let expected = format!("{name}: is the file that standard output goes to");
    assert_failed(output, &expected);
    assert_eq!(state(&path), before);
}

fn an_output_is_not_standard_input() {
    let (_folder, path) = folder_with("desk.book", b"old");
    let name = path.to_str().unwrap();
    let before = state(&path);
    let output = copier("-", name).stdin(File::open(&path).unwrap()).output();
    let expected = format!("{name}: is the same file as the input standard input");
    assert_failed(output.unwrap(), &expected);
    assert_eq!(state(&path), before);
}

fn a_device_may_be_both() {
    let null = || File::options().read(true).write(true).open("/dev/null");
    let mut command = copier("-", "-");
    let command = command.stdin(null().unwrap()).stdout(null().unwrap());
    assert!(command.status().unwrap().success());
}
