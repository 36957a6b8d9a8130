//! The day that a call is given: every case of another one than the book's,
//! and figures that do not depend on it.

use seddolki_books::{
    assemble, draw_book, draw_other_day, draw_other_day_case, Call, Draw, Ending, OtherDay, Takes,
    Tally, ENTRIES,
};
use seddolki_compare::{assert_alike, books, calls, is_whole, margin_case, Seeds};
use seddolki_model::{valuation_day, Book, Ground};

/// Bounds the time of a margin.
const WORK: usize = 300;

#[test]
fn another_day_is_refused_alike_in_every_case_and_nothing_is_written() {
    let seeds = Seeds::of_this_run();
    let (mut reached, mut differed) = (Tally::default(), Tally::default());
    for number in 0..calls() / 3 {
        let case = draw_other_day_case(&mut seeds.draw(number), WORK);
        let outcome = assert_alike(&case, number);
        let ending = Ending::of(&case, &outcome);
        if !ending.is_of_another_day() {
            continue;
        }
        assert_eq!(outcome.answer.number, ending.number(), "case {number}");
        assert!(outcome.after == case, "case {number}");
        reached.add((case.call.name(), ending));
        if ending.number() == Ground::ValuationDay.number() {
            assert_eq!(outcome.answer.value, 0, "case {number}");
            let other = OtherDay::of(valuation_day(&case.lent), case.day);
            differed.add((case.call.name(), other.expect("another day")));
        }
    }
    let on_day = || {
        ENTRIES
            .iter()
            .filter(|entry| entry.takes == Takes::BookOnDay)
    };
    let endings = on_day().flat_map(|entry| {
        let endings = Ending::all(entry).into_iter();
        let of_another_day = endings.filter(|ending| ending.is_of_another_day());
        of_another_day.map(|ending| (entry.name, ending))
    });
    reached.assert_all(endings, is_whole().into());
    let days = on_day().flat_map(|entry| OtherDay::ALL.map(|other| (entry.name, other)));
    differed.assert_all(days, is_whole().into());
}

/// The report of a book on its own day.
fn report_of(book: &Book, number: u64) -> Vec<u8> {
    let case = margin_case(&mut Draw::new(number), assemble(book));
    let outcome = assert_alike(&case, number);
    assert_eq!(outcome.answer.number, 0);
    let Call::Margin { report } = outcome.after.call else {
        unreachable!("a margin was asked for");
    };
    report
}

#[test]
fn the_same_book_of_another_day_has_the_same_report() {
    let seeds = Seeds::of_this_run();
    for number in 0..books() / 10 {
        let mut draw = seeds.draw(number);
        let book = draw_book(&mut draw, WORK);
        let valuation_day = draw_other_day(&mut draw, book.valuation_day);
        let other = Book {
            valuation_day,
            ..book.clone()
        };
        assert!(report_of(&book, number) == report_of(&other, number));
    }
}
