//! Previews drawn at random.

use crate::{
    assemble, draw_any_book, draw_case_on, draw_record, draw_record_bytes, draw_report_space,
    hold_to_work, most_trades, Call, Case, Draw,
};
use seddolki_model::{Book, BLOCK, FULL_BLOCK, MAX_BLOCKS, RECORD};

/// A preview on any book, whole or spoiled, of a trade that goes into the last
/// block or into a new one or has no room, in lent bytes up to more than any
/// book takes. `work` is as in `draw_book`, the new trade left out.
pub fn draw_preview_case(draw: &mut Draw, work: usize) -> Case {
    let book = draw_filled_book(draw, work);
    let to_longest = MAX_BLOCKS * BLOCK - assemble(&book).len();
    let behind = draw.pick(&[
        0,
        1,
        BLOCK - 1,
        BLOCK,
        to_longest,
        to_longest + 1,
        to_longest + BLOCK,
    ]);
    draw_case_on(draw, &book, behind, |draw, book| {
        if draw.once_in(6) {
            all_wrong(draw)
        } else {
            draw_preview(draw, book)
        }
    })
}

/// An accepted book whose last block has room or is full, or which has as many
/// trades as a book takes. `work` is as in `draw_book`.
pub(crate) fn draw_filled_book(draw: &mut Draw, work: usize) -> Book {
    let mut book = draw_any_book(draw, work);
    let count = draw_trade_count(draw, &book);
    repeat_trades(draw, &mut book, count);
    hold_to_work(&mut book, work);
    book
}

/// About as many as the book has, the last block with room or full, or as many
/// as a book takes.
fn draw_trade_count(draw: &mut Draw, book: &Book) -> usize {
    let most = most_trades(&book.curves);
    let whole_blocks = book.trades.len().next_multiple_of(FULL_BLOCK);
    let whole_blocks = whole_blocks.min(most - FULL_BLOCK);
    match draw.within(0..=3) {
        0 => whole_blocks + 1 + draw.place(FULL_BLOCK - 1),
        1 | 2 => whole_blocks,
        _ => most,
    }
}

/// Gives the book so many trades, its own over and over.
fn repeat_trades(draw: &mut Draw, book: &mut Book, count: usize) {
    if book.trades.is_empty() {
        book.trades = vec![draw_record(draw, &book.curves, 1)];
    }
    let own = std::mem::take(&mut book.trades);
    book.trades = own.into_iter().cycle().take(count).collect();
}

/// With a record accepted, spoiled, or of random bytes.
pub(crate) fn draw_preview(draw: &mut Draw, book: &Book) -> Call {
    Call::Preview {
        record: draw_record_bytes(draw, book),
        report: draw_report_space(draw),
    }
}

/// A record that no book takes, and too little space for a report.
fn all_wrong(draw: &mut Draw) -> Call {
    let space = draw.place(BLOCK);
    Call::Preview {
        record: [u8::MAX; RECORD],
        report: draw.bytes(space),
    }
}
