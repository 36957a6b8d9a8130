//! Cases drawn at random: calls, what they are given, and the books that they
//! are lent.

use crate::{
    assemble, damage_anywhere, damage_book, damage_record, draw_bad_used, draw_book, draw_day,
    draw_filled_book, draw_near_ties, draw_other_day, draw_record, Call, Case, Draw, Entry,
    NearTies, Takes, ENTRIES,
};
use seddolki_model::{
    seal, Book, Ground, Layout, BLOCK, MAX_AMOUNT, MAX_BLOCKS, MAX_DAY, MAX_RATE, PAYMENTS, RECORD,
};

/// Any call on any book, whole or spoiled, now and then one whose losses are
/// near each other. `work` is as in `draw_book`.
pub fn draw_case(draw: &mut Draw, work: usize) -> Case {
    draw_any_case(draw, work, |draw, book| {
        let entry = &ENTRIES[draw.place(ENTRIES.len())];
        (entry.draw)(draw, book)
    })
}

/// The same of one entry.
pub fn draw_case_of(draw: &mut Draw, work: usize, entry: &Entry) -> Case {
    draw_any_case(draw, work, entry.draw)
}

/// A call on another day than the book's, which is whole or spoiled.
pub fn draw_other_day_case(draw: &mut Draw, work: usize) -> Case {
    let book = draw_filled_book(draw, work);
    let behind = draw.pick(&[0, BLOCK - 1, BLOCK, BLOCK + 1]);
    let on_day: Vec<&Entry> = ENTRIES
        .iter()
        .filter(|e| e.takes == Takes::BookOnDay)
        .collect();
    let case = draw_case_on(draw, &book, behind, |draw, book| {
        (draw.pick(&on_day).draw)(draw, book)
    });
    let day = draw_other_day(draw, book.valuation_day);
    Case { day, ..case }
}

fn draw_any_case(
    draw: &mut Draw,
    work: usize,
    draw_call: impl Fn(&mut Draw, &Book) -> Call,
) -> Case {
    let book = draw_any_book(draw, work);
    let behind = draw.within(0..=2 * BLOCK as u64) as usize;
    let behind = draw.pick(&[0, BLOCK - 1, BLOCK, BLOCK + 1, behind]);
    draw_case_on(draw, &book, behind, draw_call)
}

/// An accepted book, now and then one whose losses are near each other.
pub(crate) fn draw_any_book(draw: &mut Draw, work: usize) -> Book {
    if draw.once_in(8) {
        let ties = draw.pick(&NearTies::ALL);
        draw_near_ties(draw, ties, work)
    } else {
        draw_book(draw, work)
    }
}

/// A call on this book, whole or spoiled, with so many lent bytes behind it,
/// now and then on another day than the book's.
pub(crate) fn draw_case_on(
    draw: &mut Draw,
    book: &Book,
    behind: usize,
    draw_call: impl Fn(&mut Draw, &Book) -> Call,
) -> Case {
    let mut lent = draw_bytes(draw, book);
    let length = lent.len();
    lent.extend(draw.bytes(behind));
    let used = match draw.within(0..=19) {
        0 => draw_bad_used(draw, lent.len()),
        1 => draw.place(MAX_BLOCKS + 3) * BLOCK,
        2 => draw.place(lent.len() + BLOCK),
        _ => length,
    };
    let day = draw_day(draw, book.valuation_day);
    let call = draw_call(draw, book);
    Case {
        lent,
        used,
        day,
        call,
    }
}

/// The bytes of the book, half of the time spoiled.
fn draw_bytes(draw: &mut Draw, book: &Book) -> Vec<u8> {
    let mut bytes = assemble(book);
    match draw.within(0..=7) {
        0..=3 => bytes,
        4 | 5 => {
            let ground = draw.pick(&Ground::ON_BOOK[1..]);
            let spoiled = damage_book(draw, book, ground);
            spoiled.map_or(bytes, |(spoiled, _)| spoiled)
        }
        6 => {
            damage_anywhere(draw, &mut bytes);
            bytes
        }
        _ => draw_noise(draw),
    }
}

/// Random bytes, often whole blocks with right checks.
fn draw_noise(draw: &mut Draw) -> Vec<u8> {
    if draw.once_in(3) {
        let length = draw.place(4 * BLOCK);
        return draw.bytes(length);
    }
    let length = draw.place(5) * BLOCK;
    let mut bytes = draw.bytes(length);
    for block in bytes.chunks_mut(BLOCK) {
        block[0] = draw.within(0..=4) as u8;
        seal(block);
    }
    bytes
}

pub(crate) fn draw_report_space(draw: &mut Draw) -> Vec<u8> {
    let length = draw.pick(&[BLOCK, BLOCK, BLOCK + 1, 2 * BLOCK, BLOCK - 1, 1, 0]);
    draw.bytes(length)
}

pub(crate) fn draw_position(draw: &mut Draw, book: &Book) -> usize {
    let count = book.trades.len();
    let within = draw.place(count.max(1));
    let last = count.saturating_sub(1);
    let beyond = draw.pick(&[count, count + 1, usize::MAX]);
    draw.pick(&[0, last, within, within, within, beyond])
}

/// A record accepted, spoiled, or of random bytes.
pub(crate) fn draw_record_bytes(draw: &mut Draw, book: &Book) -> [u8; RECORD] {
    let mut record = draw_record(draw, &book.curves, (*PAYMENTS.end()).into());
    match draw.within(0..=7) {
        0..=3 => record.to_bytes(),
        4..=6 => {
            let ground = draw.pick(Ground::ON_RECORD);
            if let Some(spoiled) = damage_record(draw, &record, &book.curves, ground) {
                record = spoiled;
            }
            record.to_bytes()
        }
        _ => {
            let random = draw.bytes(RECORD);
            let mut bytes = record.to_bytes();
            let start = draw.place(RECORD);
            bytes[start..].copy_from_slice(&random[start..]);
            bytes
        }
    }
}

pub(crate) fn draw_present_value(draw: &mut Draw) -> Call {
    let limits = [MAX_AMOUNT, MAX_RATE, MAX_DAY];
    let mut asked = limits.map(|limit| draw.edge(0..=limit));
    if draw.once_in(4) {
        let place = draw.place(limits.len());
        asked[place] = draw.edge(limits[place] + 1..=u64::MAX);
    }
    let [amount, rate, day] = asked;
    Call::PresentValue {
        amount,
        rate,
        day,
        tolerance: draw.number(),
    }
}
