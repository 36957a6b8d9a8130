//! Draws how the processor time of a margin grows, from the benchmark's table.
//!
//! `growth CSV` prints the picture; it ends with 0 drawn, 1 a wrong table,
//! 2 wrong usage, 3 a file or standard output that failed.

#![forbid(unsafe_code)]

use seddolki_chart::Growth;
use std::ffi::OsString;
use std::fs;
use std::io::{stderr, stdout, Write};
use std::path::Path;
use std::process::ExitCode;

fn main() -> ExitCode {
    let operands: Vec<OsString> = std::env::args_os().skip(1).collect();
    let drawn = match &operands[..] {
        [table] => draw(Path::new(table)),
        _ => Err((2, "usage: growth CSV".into())),
    };
    match drawn {
        Ok(()) => ExitCode::SUCCESS,
        Err((status, message)) => {
            // where it can't be said, the status still tells
            let _ = writeln!(stderr(), "{message}");
            status.into()
        }
    }
}

/// A fault has the exit status and what is said.
fn draw(table: &Path) -> Result<(), (u8, String)> {
    let name = table.display();
    let text = fs::read_to_string(table).map_err(|error| (3, format!("{name}: {error}")))?;
    let growth = Growth::read(&text).map_err(|refusal| (1, format!("{name}: {refusal}")))?;
    let printed = stdout().write_all(growth.draw().as_bytes());
    printed.map_err(|error| (3, format!("standard output: {error}")))
}
