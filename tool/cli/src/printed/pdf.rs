//! Text as PDF, by way of a program that Debian has.

use seddolki_store::Failure;
use std::env;
use std::fs::File;
use std::io::{self, ErrorKind, Seek, Write};
use std::path::Path;
use std::process::Command;

const PROGRAM: &str = "gs";
const PACKAGE: &str = "ghostscript";

/// From standard input to standard output, messages to standard error. The
/// package's gslp.ps puts lines on sheets, without headings, in Courier of 10
/// points: with these margins A4 has room for 83 characters. The encoding makes
/// a minus that can be copied as such.
const ARGUMENTS: &str = "-q -dBATCH -dNOPAUSE -sDEVICE=pdfwrite -sPAPERSIZE=a4 \
                         -sstdout=%stderr -sOutputFile=- -- gslp.ps -qB --margin-left 0.8 \
                         --margin-bottom 0.8 --encoding StandardEncoding %stdin";

/// The PDF of a text of ASCII in lines of up to 80 characters. The program
/// reads it from a file, so that it may write before it has read all.
pub fn of_text(text: &str) -> Result<Vec<u8>, Failure> {
    let program = Path::new(PROGRAM);
    let mut input = file_of(text).map_err(Failure::of(&env::temp_dir()))?;
    let mut command = Command::new(PROGRAM);
    command.args(ARGUMENTS.split_whitespace());
    let copy = input.try_clone().map_err(Failure::of(program))?;
    let made = command.stdin(copy).output().map_err(not_started)?;
    let read = input.stream_position().map_err(Failure::of(program))?;
    if made.status.success() && read == text.len() as u64 && made.stdout.starts_with(b"%PDF") {
        return Ok(made.stdout);
    }
    // what it says first, or else how it ended
    let said = String::from_utf8_lossy(&made.stderr);
    let first = said.lines().map(str::trim).find(|line| !line.is_empty());
    let reason = first.map_or_else(|| made.status.to_string(), str::to_owned);
    Err(Failure::new(program, format!("made no PDF: {reason}")))
}

/// A file without a name that holds a text, at its start.
fn file_of(text: &str) -> io::Result<File> {
    let mut file = tempfile::tempfile()?;
    file.write_all(text.as_bytes())?;
    file.rewind()?;
    Ok(file)
}

fn not_started(error: io::Error) -> Failure {
    let program = Path::new(PROGRAM);
    if error.kind() == ErrorKind::NotFound {
        let reason = "the program that makes a PDF is not there; Debian has it in the package";
        return Failure::new(program, format!("{reason} {PACKAGE}"));
    }
    Failure::of(program)(error)
}
