//! Previews beside the reports of the books with the trade in them.

use seddolki_books::{assemble, draw_book, draw_record, most_trades, Call, Case, Draw, Engine};
use seddolki_model::{report, sealed, Book, Layout, BLOCK};

/// Bounds the time of a margin.
const WORK: usize = 200;

/// A preview in more bytes than the book's; the record is the book's last
/// trade, which it is not given.
fn preview_of_the_last(draw: &mut Draw, book: &Book) -> Case {
    let (last, before) = book.trades.split_last().expect("a trade was added");
    let trades = before.to_vec();
    let mut lent = assemble(&Book {
        trades,
        ..book.clone()
    });
    let used = lent.len();
    lent.extend(draw.bytes(BLOCK));
    let call = Call::Preview {
        record: last.to_bytes(),
        report: draw.bytes(BLOCK + 9),
    };
    Case {
        lent,
        used,
        day: book.valuation_day,
        call,
    }
}

#[test]
fn the_report_is_that_of_the_book_with_the_trade_and_nothing_else_is_written() {
    for seed in 0..300 {
        let mut draw = Draw::new(seed);
        let mut book = draw_book(&mut draw, WORK);
        let most = most_trades(&book.curves);
        book.trades.truncate(most - 1);
        book.trades.push(draw_record(&mut draw, &book.curves, 12));
        let case = preview_of_the_last(&mut draw, &book);
        let outcome = case.run(Engine::Model);
        assert_eq!(outcome.answer, Ok(0).into(), "seed {seed}");
        let mut due = case;
        let Call::Preview { report: space, .. } = &mut due.call else {
            unreachable!("a preview was drawn");
        };
        space[..BLOCK].copy_from_slice(&sealed(&report(&book)));
        assert!(outcome.after == due, "seed {seed}");
    }
}
