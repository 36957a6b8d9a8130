//! What stands between the values of a line.

use crate::column::Column;
use crate::decimal::Decimals;
use crate::fault::{shown, Fault};
use seddolki_format::text::listed;
use std::fmt::{self, Display, Formatter};

/// The separator of a file of trades, by which its numbers are written.
#[derive(Clone, Copy, Debug, PartialEq, Eq)]
pub enum Separator {
    /// With decimal points.
    Comma,
    /// With decimal commas, as Turkish spreadsheets write.
    Semicolon,
    /// With either; points are written.
    Tab,
}

impl Separator {
    /// All of them.
    pub const ALL: [Separator; 3] = [Separator::Comma, Separator::Semicolon, Separator::Tab];

    pub(crate) fn byte(self) -> u8 {
        self.row().0
    }

    /// How the numbers between such separators are written.
    pub fn decimals(self) -> Decimals {
        self.row().1
    }

    fn row(self) -> (u8, Decimals, &'static str) {
        match self {
            Separator::Comma => (b',', Decimals::Point, "comma"),
            Separator::Semicolon => (b';', Decimals::Comma, "semicolon"),
            Separator::Tab => (b'\t', Decimals::Either, "tab"),
        }
    }

    /// The separator of a file, by its line of column names, and by a line as
    /// `sep=;` before that, which spreadsheets put there.
    pub(crate) fn of_file(bytes: &[u8]) -> Result<Separator, Fault> {
        let lines = bytes.split(|byte| *byte == b'\n');
        let mut lines = (1..).zip(lines).filter(|(_, line)| !is_empty(line));
        let mut next = || {
            let (number, line) = lines.next().ok_or_else(names_missing)?;
            let text = str::from_utf8(line)
                .ok()
                .filter(|text| !text.contains('\0'));
            Ok((number, text.ok_or_else(|| not_utf_8(number))?))
        };
        let (number, line) = next()?;
        let Some(said) = said_by(line) else {
            return between_names(line, None).map_err(|fault| fault.on_line(number));
        };
        let said = said.map_err(|fault| fault.on_line(number))?;
        let (number, names) = next()?;
        between_names(names, Some(said)).map_err(|fault| fault.on_line(number))
    }
}

/// Whether a line says what separates the values, by its first value.
pub(crate) fn says_separator(value: &str) -> bool {
    let start = value.trim().get(..SAYS.len());
    start.is_some_and(|start| start.eq_ignore_ascii_case(SAYS))
}

const SAYS: &str = "sep=";

/// What a line says that separates the values; none where it is of column
/// names.
fn said_by(line: &str) -> Option<Result<Separator, Fault>> {
    let line = line.replace('"', "").replace("\\t", "\t");
    let line = line.trim_start().trim_end_matches([' ', '\r']);
    if !says_separator(line) {
        return None;
    }
    let mut all = Separator::ALL.into_iter();
    let said = all.find(|separator| line.as_bytes()[SAYS.len()..] == [separator.byte()]);
    Some(said.ok_or_else(|| {
        let allowed = listed(Separator::ALL, "or");
        Fault::new(format!("{} names none of {allowed}", shown(line)))
    }))
}

/// The separator of a line of column names, which is the one that was said
/// before, if any was.
fn between_names(names: &str, said: Option<Separator>) -> Result<Separator, Fault> {
    let outside = outside_quotes(names);
    let mut found = Separator::ALL.to_vec();
    found.retain(|separator| outside.contains(char::from(separator.byte())));
    let stand = if found.len() == 1 { "stands" } else { "stand" };
    let allowed = said.map_or_else(|| listed(Separator::ALL, "or"), |said| said.to_string());
    let between = match found[..] {
        [separator] if said.is_none_or(|said| said == separator) => return Ok(separator),
        [] if is_one_name(names) => return Ok(said.unwrap_or(Separator::Comma)),
        [] => "nothing stands".into(),
        _ => format!("{} {stand}", listed(&found, "and")),
    };
    let due = if said.is_some() { " is due" } else { "" };
    let message = format!("{between} between the column names: {allowed}{due}");
    Err(Fault::new(message))
}

impl Display for Separator {
    fn fmt(&self, f: &mut Formatter<'_>) -> fmt::Result {
        f.write_str(self.row().2)
    }
}

pub(crate) fn names_missing() -> Fault {
    Fault::new("the line of column names is missing")
}

pub(crate) fn not_utf_8(line: u64) -> Fault {
    Fault::new("it is not written in UTF-8: save it as CSV UTF-8").on_line(line)
}

/// Whether a line has separators, blanks and quotes alone.
fn is_empty(line: &[u8]) -> bool {
    let empty = |byte: &u8| byte.is_ascii_whitespace() || b",;\"".contains(byte);
    line.iter().all(empty)
}

fn outside_quotes(line: &str) -> String {
    line.split('"').step_by(2).collect()
}

fn is_one_name(line: &str) -> bool {
    Column::named(&line.replace('"', "")).is_some()
}
