//! Paths as messages show them.

use std::os::unix::ffi::OsStrExt;
use std::path::Path;

/// A path in a message: its text as it is, but nothing that moves a
/// terminal's cursor or turns its text, and other bytes as `\xNN`.
pub fn shown(path: &Path) -> String {
    if path.as_os_str().is_empty() {
        return "''".into();
    }
    let mut text = String::new();
    for chunk in path.as_os_str().as_bytes().utf8_chunks() {
        chunk.valid().chars().for_each(|c| push_char(&mut text, c));
        push_bytes(&mut text, chunk.invalid());
    }
    text
}

fn push_char(text: &mut String, c: char) {
    match c {
        '\n' | '\r' | '\t' => text.extend(c.escape_default()),
        _ if is_hidden(c) => push_bytes(text, c.encode_utf8(&mut [0; 4]).as_bytes()),
        _ => text.push(c),
    }
}

fn push_bytes(text: &mut String, bytes: &[u8]) {
    let escapes = bytes.iter().map(|byte| format!("\\x{byte:02x}"));
    text.extend(escapes);
}

/// Control characters, line and paragraph separators, and what changes the
/// direction of text.
pub fn is_hidden(c: char) -> bool {
    c.is_control()
        || matches!(
            c,
            '\u{61c}' | '\u{200e}' | '\u{200f}' | '\u{2028}'..='\u{202e}' | '\u{2066}'..='\u{2069}'
        )
}
