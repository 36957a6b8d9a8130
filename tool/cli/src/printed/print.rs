//! What the tool prints. Nothing here panics, whatever became of the streams.

use crate::ended::Ended;
use seddolki_store as store;
use std::io::{self, Write};

/// A line on standard error.
pub fn say(line: &str) {
    prompt(&format!("seddolki: {line}\n"));
}

/// A text on standard error. If it cannot be written it is lost, and no more.
pub fn prompt(text: &str) {
    let _ = io::stderr().write_all(visible(text).as_bytes());
}

/// What a command was asked for, on standard output.
pub fn result(text: &str) -> Result<(), Ended> {
    Ok(store::print(text.as_bytes())?)
}

/// Word of an edit that is done, on standard output. It stays done where that cannot be written.
pub fn notice(text: &str) {
    notice_lines(&format!("{}\n", visible(text)));
}

/// The same, of whole lines that are ready to be printed.
pub fn notice_lines(lines: &str) {
    let _ = store::print(lines.as_bytes());
}

/// A text with what is not seen as escapes; ends of lines stay.
pub fn visible(text: &str) -> String {
    let shown = |c: char| match c {
        '\n' => "\n".to_owned(),
        c if store::is_hidden(c) => c.escape_unicode().to_string(),
        c => c.to_string(),
    };
    text.chars().map(shown).collect()
}

#[cfg(test)]
mod tests {
    use super::visible;

    #[test]
    fn control_characters_are_escaped_and_letters_are_not() {
        assert_eq!(visible("kuruş\n"), "kuruş\n");
        assert_eq!(
            visible("\u{1b}[31m\t\r\u{9b}"),
            "\\u{1b}[31m\\u{9}\\u{d}\\u{9b}"
        );
    }
}
