//! Trades that look keyed twice.

use crate::ended::Ended;
use crate::printed::print;
use crate::trades::words;
use seddolki_doubles::{Double, Placed};

/// What is said behind every refusal of a double.
const MEANT: &str = "nothing is changed; say --again if it is meant";

/// What is said of some doubles: each with what is alike, and its two trades.
#[derive(Debug, Default)]
pub struct Told {
    /// Of those that are refused unless they are meant.
    refused: Vec<String>,
    /// Of the others.
    taken: Vec<String>,
}

impl Told {
    /// A trade is named by its place.
    pub fn of(doubles: &[Double], named: impl Fn(&Placed) -> String) -> Self {
        let lines = |refused: bool| -> Vec<String> {
            let own = doubles.iter().filter(|d| d.likeness.refused() == refused);
            own.flat_map(|double| double_lines(double, &named))
                .collect()
        };
        Told {
            refused: lines(true),
            taken: lines(false),
        }
    }

    /// One line, of what is refused unless it is meant.
    pub fn refusing(line: String) -> Self {
        Told {
            refused: vec![line],
            taken: vec![],
        }
    }

    /// Refuses what is wrong and, unless it is meant, what looks keyed twice,
    /// both at once; else all is to be told.
    pub fn unless_wrong(self, wrong: Vec<String>, again: bool) -> Result<Self, Ended> {
        let mut lines = wrong;
        if !again && !self.refused.is_empty() {
            lines.extend_from_slice(&self.refused);
            lines.push(MEANT.into());
        }
        if lines.is_empty() {
            return Ok(self);
        }
        Err(Ended::Refused(lines))
    }

    /// Says it, once the edit is done.
    pub fn say(&self) {
        let lines = self.refused.iter().chain(&self.taken);
        lines.for_each(|line| print::say(line));
    }

    /// Says it where nothing is edited, with what the command would make of
    /// it that edits.
    pub fn say_beforehand(mut self, command: &str) {
        if !self.refused.is_empty() {
            let verdict = format!("{command} would refuse this unless --again is said");
            self.refused.push(verdict);
        }
        self.say();
    }
}

fn double_lines(double: &Double, named: impl Fn(&Placed) -> String) -> [String; 3] {
    let (earlier, later) = (named(&double.earlier), named(&double.later));
    [
        double.in_words(&earlier, &later),
        format!("  {earlier}: {}", words::trade(&double.earlier.record)),
        format!("  {later}: {}", words::trade(&double.later.record)),
    ]
}
