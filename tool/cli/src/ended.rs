//! How a command ends when it does not do what it was asked to.

use crate::printed::print;
use seddolki_store::Failure;

/// The exit status of a command that did all it was asked to.
pub const DONE: u8 = 0;

#[derive(Debug)]
pub enum Ended {
    /// By a ground of the engine, or by a rule of what was put in; a line each.
    Refused(Vec<String>),
    /// The command was not used as it is meant to be.
    Misused(String),
    /// A file or the system failed, and nothing changed.
    Failed(String),
}

impl Ended {
    pub fn refused(line: impl Into<String>) -> Self {
        Ended::Refused(vec![line.into()])
    }

    /// Wrong usage, where it is one.
    pub fn misused(wrong: bool, reason: &str) -> Result<(), Self> {
        match wrong {
            true => Err(Ended::Misused(reason.into())),
            false => Ok(()),
        }
    }

    pub fn status(&self) -> u8 {
        match self {
            Ended::Refused(_) => 1,
            Ended::Misused(_) => 2,
            Ended::Failed(_) => 3,
        }
    }

    /// Says why on standard error, and gives the exit status.
    pub fn told(&self) -> u8 {
        match self {
            Ended::Refused(lines) => lines.iter().for_each(|line| print::say(line)),
            Ended::Misused(line) | Ended::Failed(line) => print::say(line),
        }
        self.status()
    }
}

impl From<Failure> for Ended {
    fn from(failure: Failure) -> Self {
        Ended::Failed(failure.to_string())
    }
}
