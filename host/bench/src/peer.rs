//! A program of another make that values the same books.
//!
//! Called as `PROGRAM REPEATS MODE`, it reads an accepted book on standard
//! input and values it so often. On standard output it prints a line for
//! each curve, `curve ID base BASE loss LOSS scenario SCENARIO`, in
//! hundredths; on standard error its last words are `seconds SECONDS`, the
//! time of valuing the book once, reading it left out.

use std::error::Error;
use std::io::Write;
use std::process::{Command, Output, Stdio};
use std::str::FromStr;
use std::time::Duration;

pub struct Peer {
    pub program: String,
}

/// What a peer makes of a curve.
#[derive(Debug)]
pub struct ValuedCurve {
    pub base: f64,
    pub loss: f64,
    pub scenario: u32,
}

impl Peer {
    fn run(&self, book: &[u8], repeats: u32, mode: &str) -> Result<Output, Box<dyn Error>> {
        let mut run = Command::new(&self.program)
            .args([&repeats.to_string(), mode])
            .stdin(Stdio::piped())
            .stdout(Stdio::piped())
            .stderr(Stdio::piped())
            .spawn()
            .map_err(|error| format!("{}: {error}", self.program))?;
        run.stdin.take().ok_or("no input")?.write_all(book)?;
        Ok(run.wait_with_output()?)
    }

    /// The curves of a book.
    pub fn value(&self, book: &[u8], mode: &str) -> Result<Vec<ValuedCurve>, Box<dyn Error>> {
        let printed = String::from_utf8(self.run(book, 1, mode)?.stdout)?;
        Ok(printed.lines().map(curve).collect::<Result<_, _>>()?)
    }

    /// How long a book takes, over so many repeats.
    pub fn time(&self, book: &[u8], repeats: u32, mode: &str) -> Result<Duration, Box<dyn Error>> {
        let said = String::from_utf8(self.run(book, repeats, mode)?.stderr)?;
        Ok(Duration::from_secs_f64(field(&said, "seconds")?))
    }
}

fn curve(line: &str) -> Result<ValuedCurve, String> {
    Ok(ValuedCurve {
        base: field(line, "base")?,
        loss: field(line, "loss")?,
        scenario: field(line, "scenario")?,
    })
}

/// The number behind a word.
fn field<T: FromStr>(text: &str, name: &str) -> Result<T, String> {
    let mut words = text.split_whitespace();
    words
        .find(|word| *word == name)
        .and_then(|_| words.next()?.parse().ok())
        .ok_or_else(|| format!("the peer gives no {name}: {text}"))
}
