//! Accepted books drawn at random.

use crate::{draw_curves, draw_record, draw_so_many_curves, draw_valuation_day, Draw};
use seddolki_model::{block, scenarios, Book, Curve, Record, FULL_BLOCK, MAX_BLOCKS, PAYMENTS};

/// How many trades a book with these curves takes.
pub fn most_trades(curves: &[Curve]) -> usize {
    (MAX_BLOCKS - 1 - curves.len()) * FULL_BLOCK
}

/// The bytes of a book.
pub fn assemble(book: &Book) -> Vec<u8> {
    block::assemble(book.account, book.valuation_day, &book.curves, &book.trades)
}

/// The lent bytes after an edit that leaves this book: the book, zeros where a
/// block was left empty, and what was behind.
pub fn bytes_after(book: &Book, before: &[u8], used: usize) -> Vec<u8> {
    let mut bytes = assemble(book);
    bytes.resize(bytes.len().max(used), 0);
    let behind = before.get(bytes.len()..).unwrap_or_default();
    [&bytes, behind].concat()
}

/// An accepted book. Flows times scenarios, summed over the curves, stay
/// about within `work`, so that its margin takes a known time; a book too
/// long for that has no stressed scenario.
pub fn draw_book(draw: &mut Draw, work: usize) -> Book {
    let curves = draw_curves(draw);
    let count = draw_trade_count(draw, &curves);
    let most_payments = most_payments(draw, count, work);
    let trades = (0..count)
        .map(|_| draw_record(draw, &curves, most_payments))
        .collect();
    let mut book = draw_book_of(draw, curves, trades);
    hold_to_work(&mut book, work);
    book
}

/// An accepted book of 128 blocks with so many curves, its trades different
/// from each other.
pub fn draw_full_book(draw: &mut Draw, curves: u64) -> Book {
    let curves = draw_so_many_curves(draw, curves);
    let mut trades = vec![];
    while trades.len() < most_trades(&curves) {
        let trade = draw_record(draw, &curves, 12);
        if !trades.contains(&trade) {
            trades.push(trade);
        }
    }
    draw_book_of(draw, curves, trades)
}

/// A book with these parts, of any account and day.
pub(crate) fn draw_book_of(draw: &mut Draw, curves: Vec<Curve>, trades: Vec<Record>) -> Book {
    Book {
        account: draw.edge(0..=u32::MAX.into()) as u32,
        valuation_day: draw_valuation_day(draw),
        curves,
        trades,
    }
}

/// No trade, a few, whole blocks, or a book of 128 blocks.
fn draw_trade_count(draw: &mut Draw, curves: &[Curve]) -> usize {
    let full = most_trades(curves);
    match draw.within(0..=39) {
        0 => full - draw.place(FULL_BLOCK),
        1 => full,
        2..=5 => 0,
        6..=11 => FULL_BLOCK * draw.within(1..=4) as usize,
        12..=27 => draw.within(1..=8) as usize,
        _ => draw.within(1..=45) as usize,
    }
}

/// Few payments where there are many trades.
fn most_payments(draw: &mut Draw, trades: usize, work: usize) -> u64 {
    let fair = (work / (trades + 1)) as u64;
    let most = draw.pick(&[1, 4, 12, (*PAYMENTS.end()).into()]);
    most.min(fair).max(1)
}

/// Takes steps from the curve with the most work until the whole is held.
pub(crate) fn hold_to_work(book: &mut Book, work: usize) {
    let flows: Vec<usize> = book
        .curves
        .iter()
        .map(|curve| book.flows_on(curve).len())
        .collect();
    let work_of = |(curve, flows): (&Curve, &usize)| scenarios(curve).len() * flows;
    while book.curves.iter().zip(&flows).map(work_of).sum::<usize>() > work {
        let steps = (0..book.curves.len())
            .filter(|&i| book.curves[i].steps != [0; 3])
            .max_by_key(|&i| work_of((&book.curves[i], &flows[i])))
            .and_then(|i| book.curves[i].steps.iter_mut().max());
        let Some(steps) = steps else {
            return;
        };
        *steps -= 1;
    }
}
