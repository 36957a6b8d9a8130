//! What programs do to a file of text besides writing it.

use std::borrow::Cow;

/// The bytes of a file behind a byte order mark, with line feeds where
/// carriage returns alone end the lines.
pub(crate) fn content(bytes: &[u8]) -> Cow<'_, [u8]> {
    let bytes = bytes.strip_prefix(b"\xef\xbb\xbf").unwrap_or(bytes);
    if bytes.contains(&b'\n') {
        return bytes.into();
    }
    let line_feed = |byte: &u8| if *byte == b'\r' { b'\n' } else { *byte };
    bytes.iter().map(line_feed).collect()
}

#[cfg(test)]
mod tests {
    use super::content;

    #[test]
    fn marks_and_carriage_returns_go() {
        assert_eq!(*content(b"\xef\xbb\xbfa\r\nb\r"), *b"a\r\nb\r");
        assert_eq!(*content(b"a\rb\r"), *b"a\nb\n");
        assert_eq!(*content(b"a\xef\xbb\xbf"), *b"a\xef\xbb\xbf");
    }
}
