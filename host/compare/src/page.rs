//! A statement's page read back.

use seddolki_model::LINE;
use std::str::from_utf8;

/// Columns of an amount.
const AMOUNT: usize = 22;

/// What a line shows: words from the left, and amounts in hundredths.
#[derive(Clone, Debug, PartialEq, Eq)]
pub struct Line {
    pub words: Vec<String>,
    pub amounts: Vec<i64>,
}

/// The lines of the page of a book with so many trades.
pub fn read_page(page: &[u8], trades: usize) -> Vec<Line> {
    let lines = page.chunks(LINE).enumerate();
    lines
        .map(|(place, line)| match place {
            0 => read_line(line, 0),
            _ if place <= trades => read_line(line, 1),
            _ => read_line(line, 3),
        })
        .collect()
}

/// A line with so many amounts.
fn read_line(line: &[u8], amounts: usize) -> Line {
    let text = line
        .strip_suffix(b"\n")
        .expect("a line ends in a line feed");
    assert_eq!(text.len(), LINE - 1);
    let (words, columns) = text.split_at(text.len() - amounts * AMOUNT);
    let words = from_utf8(words).expect("words are text").trim_end();
    Line {
        words: words.split(' ').map(String::from).collect(),
        amounts: columns.chunks(AMOUNT).map(read_amount).collect(),
    }
}

fn read_amount(column: &[u8]) -> i64 {
    let text = from_utf8(column).expect("an amount is text").trim_start();
    let (whole, hundredths) = text.split_once('.').expect("an amount has a point");
    assert_eq!(hundredths.len(), 2, "{text}");
    format!("{whole}{hundredths}")
        .parse()
        .unwrap_or_else(|_| panic!("{text} is no amount"))
}
