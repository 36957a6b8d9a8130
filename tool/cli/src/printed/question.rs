//! A question, and its answer.

use crate::ended::Ended;
use crate::printed::print;
use seddolki_store as store;
use std::io::{self, IsTerminal};

/// Bytes of an answer that are looked at.
const LONGEST: usize = 80;

/// Asks on standard error. A line of standard input that says y or yes is a
/// yes; any other, and the end of the input, is a no.
pub fn is_answered_yes(question: &str) -> Result<bool, Ended> {
    print::prompt(&format!("{question} [y/N] "));
    let answer = store::read_line(LONGEST)?;
    // a terminal shows the end of the line that is typed
    if !io::stdin().is_terminal() || !answer.ends_with(b"\n") {
        print::prompt("\n");
    }
    Ok(is_yes(&String::from_utf8_lossy(&answer)))
}

fn is_yes(answer: &str) -> bool {
    ["y", "yes"].contains(&answer.trim().to_lowercase().as_str())
}

#[cfg(test)]
mod tests {
    use super::is_yes;

    #[test]
    fn only_a_yes_is_one() {
        for yes in ["y\n", "Y\n", "yes\n", " YES \r\n", "y"] {
            assert!(is_yes(yes), "{yes:?}");
        }
        for no in [
            "", "\n", "n\n", "no\n", "yy\n", "y n\n", "ye", "1\n", "\u{fffd}",
        ] {
            assert!(!is_yes(no), "{no:?}");
        }
    }
}
