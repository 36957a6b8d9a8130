//! What went wrong, in words.

use crate::shown;
use std::fmt;
use std::io;
use std::path::Path;

/// What went wrong with a file or the system, in words; nothing has changed.
/// (What went into a stream before it failed can't be taken back.)
#[derive(Debug)]
pub struct Failure(String);

impl Failure {
    /// What went wrong with the file at a path, and why.
    pub fn new(path: &Path, reason: impl fmt::Display) -> Failure {
        Failure(format!("{}: {reason}", shown(path)))
    }

    /// A failure where something is wrong.
    pub(crate) fn when(wrong: bool, path: &Path, reason: impl fmt::Display) -> Result<(), Failure> {
        match wrong {
            true => Err(Failure::new(path, reason)),
            false => Ok(()),
        }
    }

    /// The system's error at a path.
    pub fn of(path: &Path) -> impl Fn(io::Error) -> Failure + '_ {
        move |error| Failure::new(path, words(&error))
    }

    /// The system's error at a path, with what could not be done for it.
    pub(crate) fn because<'a>(path: &'a Path, what: &'a str) -> impl Fn(io::Error) -> Failure + 'a {
        move |error| Failure::new(path, format!("{what}: {}", words(&error)))
    }
}

impl fmt::Display for Failure {
    fn fmt(&self, to: &mut fmt::Formatter) -> fmt::Result {
        to.write_str(&self.0)
    }
}

impl std::error::Error for Failure {}

/// The system's words for an error, as part of a sentence.
pub(crate) fn words(error: &io::Error) -> String {
    let text = error.to_string();
    in_sentence(text.split(" (os error").next().unwrap_or_default())
}

/// A text as part of a sentence: its first letter is small.
pub fn in_sentence(text: &str) -> String {
    let mut letters = text.chars();
    let first = letters.next().map(|letter| letter.to_ascii_lowercase());
    first.into_iter().chain(letters).collect()
}
