//! Statements drawn at random, and the length of a page.

use crate::{Call, Draw};
use seddolki_model::{Book, LINE};
use std::collections::BTreeSet;

/// Bytes of the shortest page: title, one curve and its currency.
pub const SHORTEST_PAGE: usize = 3 * LINE;

/// Bytes of a book's page: a line for the title, each trade, each curve and
/// each currency that a curve has.
pub fn page_length(book: &Book) -> usize {
    let currencies: BTreeSet<u8> = book.curves.iter().map(|curve| curve.currency).collect();
    LINE * (1 + book.trades.len() + book.curves.len() + currencies.len())
}

/// In space for the page alone, in more, in a byte less, in too little for this
/// page or for any, or in none.
pub(crate) fn draw_statement(draw: &mut Draw, book: &Book) -> Call {
    let whole = page_length(book);
    let longer = whole + 1 + draw.place(2 * LINE);
    let (shorter, short_for_any) = (draw.place(whole), draw.place(SHORTEST_PAGE));
    let length = draw.pick(&[
        whole,
        whole,
        whole + 1,
        longer,
        whole - 1,
        shorter,
        short_for_any,
        SHORTEST_PAGE - 1,
        0,
    ]);
    Call::Statement {
        page: draw.bytes(length),
    }
}
