//! What is wrong with a text, and where.

use std::error::Error;
use std::fmt::{self, Display, Formatter};

/// One thing that is wrong, shown as `line 3, column term: ...`.
#[derive(Clone, Debug, PartialEq, Eq)]
pub struct Fault {
    /// The line of the file, counted from 1.
    pub line: Option<u64>,
    /// The name of the trade's column.
    pub column: Option<&'static str>,
    /// What was there, and what is allowed.
    pub message: String,
}

impl Fault {
    /// A fault of the text as a whole.
    pub fn new(message: impl Into<String>) -> Self {
        Fault {
            line: None,
            column: None,
            message: message.into(),
        }
    }

    /// The same fault on a line.
    pub fn on_line(self, line: u64) -> Self {
        Fault {
            line: Some(line),
            ..self
        }
    }

    /// The same fault in a column.
    pub fn in_column(self, name: &'static str) -> Self {
        Fault {
            column: Some(name),
            ..self
        }
    }
}

impl Display for Fault {
    fn fmt(&self, f: &mut Formatter<'_>) -> fmt::Result {
        let line = self.line.map(|line| format!("line {line}"));
        let column = self.column.map(|name| format!("column {name}"));
        let places: Vec<String> = line.into_iter().chain(column).collect();
        if !places.is_empty() {
            write!(f, "{}: ", places.join(", "))?;
        }
        write!(f, "{}", self.message)
    }
}

impl Error for Fault {}

/// The most characters of a given text that a message repeats.
const MOST_SHOWN: usize = 60;

/// A given text as a message repeats it: on one line, without control
/// characters, and not too long.
pub fn shown(text: &str) -> String {
    let visible = |c: char| match c {
        '"' | '\'' => c.to_string(),
        _ => c.escape_debug().to_string(),
    };
    let start: String = text.chars().take(MOST_SHOWN).map(visible).collect();
    let more = text.chars().nth(MOST_SHOWN).map_or("", |_| "...");
    start + more
}

/// The value where nothing is wrong, and else all that is.
pub(crate) fn faultless<T, F>(value: T, faults: Vec<F>) -> Result<T, Vec<F>> {
    if faults.is_empty() {
        Ok(value)
    } else {
        Err(faults)
    }
}

#[cfg(test)]
mod tests {
    use super::*;

    #[test]
    fn a_fault_names_its_place() {
        let fault = Fault::new("7 is wrong");
        assert_eq!(fault.to_string(), "7 is wrong");
        assert_eq!(fault.clone().on_line(3).to_string(), "line 3: 7 is wrong");
        let fault = fault.in_column("term");
        assert_eq!(fault.to_string(), "column term: 7 is wrong");
        assert_eq!(
            fault.on_line(3).to_string(),
            "line 3, column term: 7 is wrong"
        );
    }

    #[test]
    fn given_texts_are_shown_on_one_line() {
        assert_eq!(shown("a \"b\" 'c' ığ"), "a \"b\" 'c' ığ");
        assert_eq!(shown("a\nb\u{1b}[31m\0"), "a\\nb\\u{1b}[31m\\0");
        assert_eq!(shown("\u{202e}x"), "\\u{202e}x");
        assert_eq!(shown(&"9".repeat(60)), "9".repeat(60));
        assert_eq!(shown(&"9".repeat(61)), "9".repeat(60) + "...");
    }
}
