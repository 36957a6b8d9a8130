//! Payments of any size, at any rate and on any day, worth whole kuruş and
//! nearly a half: an engine that tells their values from less than their factors
//! must not take the other side of the half.

use seddolki_books::{assemble, draw_book, draw_payment_near_half};
use seddolki_compare::{assert_alike, books, margin_case, Seeds};

/// Bounds what the drawn book values; its curves are what is wanted of it.
const WORK: usize = 500;

/// As many payments as three curves' scenarios allow in little time.
const PAYMENTS: usize = 40;

#[test]
fn margins_are_the_same_where_values_are_near_a_half() {
    let seeds = Seeds::of_this_run();
    for number in 0..books() / 10 {
        let mut draw = seeds.draw(number);
        let mut book = draw_book(&mut draw, WORK);
        let curves = book.curves.clone();
        book.trades = (0..PAYMENTS)
            .map(|_| {
                let curve = &curves[draw.place(curves.len())];
                draw_payment_near_half(&mut draw, curve)
            })
            .collect();
        let outcome = assert_alike(&margin_case(&mut draw, assemble(&book)), number);
        assert_eq!(outcome.answer.number, 0);
    }
}
