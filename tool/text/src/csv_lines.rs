//! The lines of a file of trades, and their values.

use crate::fault::Fault;
use crate::separator::{not_utf_8, Separator};
use csv::{ReaderBuilder, StringRecord};

/// The values of a line.
pub(crate) struct Line {
    /// Counted from 1.
    pub number: u64,
    pub values: StringRecord,
}

/// The lines that hold a value, in order. No value of a trade has line ends,
/// so each line is read by itself.
pub(crate) fn lines(
    bytes: &[u8],
    separator: Separator,
) -> impl Iterator<Item = Result<Line, Fault>> + '_ {
    let empty = |line: &Line| line.values.iter().all(|value| value.trim().is_empty());
    let lines = (1..).zip(bytes.split(|byte| *byte == b'\n'));
    lines
        .map(move |(number, line)| read_line(number, line, separator))
        .filter(move |line| !line.as_ref().is_ok_and(empty))
}

fn read_line(number: u64, line: &[u8], separator: Separator) -> Result<Line, Fault> {
    let line = line.strip_suffix(b"\r").unwrap_or(line);
    if let Some(message) = quote_fault(line, separator.byte()) {
        return Err(Fault::new(message).on_line(number));
    }
    let mut builder = ReaderBuilder::new();
    builder.delimiter(separator.byte()).has_headers(false);
    let mut values = StringRecord::new();
    let read = builder.from_reader(line).read_record(&mut values);
    read.map_err(|_| not_utf_8(number))?;
    Ok(Line { number, values })
}

/// Where a byte of a line stands.
enum Place {
    Start,
    Unquoted,
    Quoted,
    /// On the quote that closes a value, or on the first of two.
    Quote,
    /// On a blank behind the closing quote.
    Behind,
}

/// What is wrong with the quotes of a line, which the reader passes over.
fn quote_fault(line: &[u8], separator: u8) -> Option<&'static str> {
    let mut place = Place::Start;
    for byte in line {
        place = match (place, *byte) {
            (Place::Start | Place::Quote, b'"') => Place::Quoted,
            (Place::Quoted, b'"') => Place::Quote,
            (Place::Quoted, _) => Place::Quoted,
            (_, byte) if byte == separator => Place::Start,
            (Place::Quote | Place::Behind, b' ' | b'\t') => Place::Behind,
            (Place::Quote | Place::Behind, _) => {
                return Some("text stands behind a closing quote");
            }
            (Place::Start | Place::Unquoted, _) => Place::Unquoted,
        };
    }
    matches!(place, Place::Quoted).then_some("a quote is not closed on its line")
}

#[cfg(test)]
mod tests {
    use super::*;

    /// Each line as its number and values, or as its fault.
    fn told(text: impl AsRef<[u8]>) -> Vec<String> {
        let show = |line: Result<Line, Fault>| match line {
            Ok(line) => format!(
                "{} {:?}",
                line.number,
                line.values.iter().collect::<Vec<_>>()
            ),
            Err(fault) => fault.to_string(),
        };
        let lines = lines(text.as_ref(), Separator::Comma);
        lines.map(show).collect()
    }

    #[test]
    fn values_are_between_commas() {
        assert_eq!(told("a, b ,,c"), [r#"1 ["a", " b ", "", "c"]"#]);
        assert_eq!(told("a,\n"), [r#"1 ["a", ""]"#]);
        assert!(told("").is_empty());
    }

    #[test]
    fn empty_lines_are_counted_and_passed_over() {
        let due = [r#"3 ["a"]"#, r#"5 ["b", "c"]"#, r#"8 ["d"]"#];
        let text = "\n  \na\n\nb,c\n,,,\n\"\",\nd\n\n,,\n";
        assert_eq!(told(text), due);
        assert_eq!(told(text.replace('\n', "\r\n")), due);
        assert_eq!(told(text.trim_end()), due);
    }

    #[test]
    fn quoted_values_hold_commas_and_quotes() {
        assert_eq!(told(r#""1,000.00" ,x"#), [r#"1 ["1,000.00 ", "x"]"#]);
        assert_eq!(told(r#""a ""b"" c""#), [r#"1 ["a \"b\" c"]"#]);
        assert_eq!(told(r#"a"b,c"#), [r#"1 ["a\"b", "c"]"#]);
    }

    #[test]
    fn wrong_quotes_are_told_and_the_next_line_read() {
        let not_closed = "line 2: a quote is not closed on its line";
        assert_eq!(
            told("a\nb,\"c\nd\ne"),
            ["1 [\"a\"]", not_closed, "3 [\"d\"]", "4 [\"e\"]"]
        );
        assert_eq!(
            told("a\r\n\"c\r\nd,\"e\"\r\n"),
            ["1 [\"a\"]", not_closed, "3 [\"d\", \"e\"]"]
        );
        assert_eq!(told("a\n\""), ["1 [\"a\"]", not_closed]);
        let behind = "line 1: text stands behind a closing quote";
        assert_eq!(told("\"1\"2,c\nd"), [behind, "2 [\"d\"]"]);
        assert_eq!(told("\"1\" \"2\"\nd"), [behind, "2 [\"d\"]"]);
    }

    #[test]
    fn lines_that_are_not_utf_8_are_told() {
        let text = b"a\n\xddb\n\nc\n\"\xff\"\n\nd";
        let wrong = |line| format!("line {line}: it is not written in UTF-8: save it as CSV UTF-8");
        let due = [
            "1 [\"a\"]".into(),
            wrong(2),
            "4 [\"c\"]".into(),
            wrong(5),
            "7 [\"d\"]".into(),
        ];
        assert_eq!(told(text), due);
    }
}
