//! Sequences of append, strike and read in lent bytes larger than the book,
//! now and then on another day, which no edit changes.

use seddolki_books::{assemble, draw_book, draw_day, draw_record, most_trades, Call, Draw};
use seddolki_compare::{assert_alike, calls, whole_case, Followed, Seeds};
use seddolki_model::{Book, Layout, BLOCK, FULL_BLOCK, RECORD};

const WORK: usize = 100;

/// Calls in one sequence.
const LENGTH: u64 = 100;

/// A few trades, or a book with hardly a block left.
fn draw_start(draw: &mut Draw) -> Book {
    let mut book = draw_book(draw, WORK);
    let full = most_trades(&book.curves);
    if draw.once_in(10) {
        let count = full - draw.place(2 * FULL_BLOCK);
        while book.trades.len() < count {
            let trade = draw_record(draw, &book.curves, 3);
            book.trades.push(trade);
        }
    } else {
        book.trades.truncate(draw.place(30));
    }
    book
}

/// Where `grows`, more are added than struck.
fn draw_edit(draw: &mut Draw, book: &Book, grows: bool) -> Call {
    let position = draw.place(book.trades.len() + 2);
    let record = draw_record(draw, &book.curves, 12).to_bytes();
    match (draw.within(0..=9), grows) {
        (0..=1, _) => Call::Read { position, record },
        (2, _) => Call::Check {},
        (3..=7, true) | (3..=4, false) => Call::Append { record },
        _ => Call::Strike { position },
    }
}

/// Plays one sequence; the trades are followed beside the bytes.
fn play(draw: &mut Draw, number: u64) -> usize {
    let book = draw_start(draw);
    let behind = draw.place(5 * BLOCK);
    let mut followed = Followed::new(book, &draw.bytes(behind));
    let mut done = 0;
    for step in 0..LENGTH {
        let grows = step % 50 < 25;
        let call = draw_edit(draw, &followed.book, grows);
        let day = draw_day(draw, followed.book.valuation_day);
        let answer = followed.run(call, day, number);
        done += usize::from(answer.number == 0);
    }
    done
}

#[test]
fn sequences_of_edits_leave_the_same_bytes() {
    let seeds = Seeds::of_this_run();
    let sequences = calls() / LENGTH;
    let done: usize = (0..sequences)
        .map(|number| play(&mut seeds.draw(number), number))
        .sum();
    println!("{sequences} sequences, {done} calls done");
    assert!(done as u64 >= sequences * LENGTH / 2);
}

#[test]
fn a_position_beyond_every_book_is_refused() {
    let seeds = Seeds::of_this_run();
    for number in 0..20 {
        let book = draw_start(&mut seeds.draw(number));
        for position in [book.trades.len(), usize::MAX] {
            let record = [7; RECORD];
            for call in [Call::Strike { position }, Call::Read { position, record }] {
                let outcome = assert_alike(&whole_case(assemble(&book), call), number);
                assert_eq!(outcome.answer.number, 14);
            }
        }
    }
}
