//! A file of trades that has been imported before.

use seddolki_format::Record;
use std::fmt::{self, Display, Formatter};
use std::ops::RangeInclusive;

/// Where the trades of a file stand in a book already.
#[derive(Clone, Debug, PartialEq, Eq)]
pub enum Standing {
    /// At these positions, in the order of the file.
    Run(RangeInclusive<usize>),
    /// Not as one run; the position of each, in the order of the file.
    Apart(Vec<usize>),
}

impl Display for Standing {
    fn fmt(&self, f: &mut Formatter<'_>) -> fmt::Result {
        match self {
            Standing::Run(run) if run.start() == run.end() => {
                write!(f, "at position {}", run.start())
            }
            Standing::Run(run) => write!(f, "at positions {} to {}", run.start(), run.end()),
            Standing::Apart(positions) => {
                let positions: Vec<String> = positions.iter().map(usize::to_string).collect();
                write!(f, "at positions {}", positions.join(", "))
            }
        }
    }
}

/// Whether a file of new trades has been imported before: every one of them
/// stands in the book, byte for byte, at a position of its own. So a trade
/// that the file has twice stands there twice.
///
/// What else the book holds, before, between or behind them, does not count,
/// and neither does their order. Where they stand one behind the other in
/// the order of the file, the first such run is given; else each takes the
/// first position that is left. No trades at all stand nowhere.
///
/// ```
/// use seddolki_doubles::{stands_already, Standing};
/// use seddolki_format::Record;
///
/// let trade = |nominal| Record { kind: 1, side: 1, nominal, ..Record::default() };
/// let book = [trade(5), trade(1), trade(2), trade(6)];
/// let again = stands_already(&book, &[trade(1), trade(2)]);
/// assert_eq!(again, Some(Standing::Run(1..=2)));
/// assert_eq!(again.unwrap().to_string(), "at positions 1 to 2");
///
/// let apart = stands_already(&book, &[trade(6), trade(1)]);
/// assert_eq!(apart, Some(Standing::Apart(vec![3, 1])));
/// assert_eq!(stands_already(&book, &[trade(1), trade(1)]), None);
/// assert_eq!(stands_already(&book, &[]), None);
/// ```
pub fn stands_already(book: &[Record], new: &[Record]) -> Option<Standing> {
    if new.is_empty() {
        return None;
    }
    let run = book.windows(new.len()).position(|trades| trades == new);
    match run {
        Some(first) => Some(Standing::Run(first..=first + new.len() - 1)),
        None => own_positions(book, new).map(Standing::Apart),
    }
}

/// A position for each trade, none of them twice.
fn own_positions(book: &[Record], new: &[Record]) -> Option<Vec<usize>> {
    let mut left: Vec<Option<&Record>> = book.iter().map(Some).collect();
    new.iter()
        .map(|trade| {
            let position = left.iter().position(|place| *place == Some(trade))?;
            left[position] = None;
            Some(position)
        })
        .collect()
}
