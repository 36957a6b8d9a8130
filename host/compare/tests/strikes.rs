//! Strikes beside every edge of a block, and books struck down to none.

use seddolki::Answer;
use seddolki_books::{draw_full_book, Call, Draw};
use seddolki_compare::{is_whole, Followed, Seeds};
use seddolki_model::{accept, Book, Layout, Record, BLOCK, CURVES, FULL_BLOCK, RECORD};
use std::collections::BTreeSet;

/// A book of four blocks of trades, the last with one.
const FEW: usize = 3 * FULL_BLOCK + 1;

const DONE: Answer = Answer {
    number: 0,
    value: 0,
};

/// Numbers of trades around those that fill blocks, up to the full book's.
fn counts(full: usize) -> [usize; 12] {
    let [eight_less, one_less] = [full - 8, full - 1];
    [1, 8, 9, 10, 17, 18, 19, 27, FEW, eight_less, one_less, full]
}

/// The book with so many of its trades, which follow each other there.
fn draw_part(draw: &mut Draw, full: &Book, count: usize) -> Book {
    let start = draw.place(full.trades.len() - count + 1);
    Book {
        trades: full.trades[start..start + count].to_vec(),
        ..full.clone()
    }
}

/// The first position and the last two; the last of a block and the first of
/// the next, at the first block, the last and one between; some others.
fn draw_positions(draw: &mut Draw, count: usize) -> BTreeSet<usize> {
    let blocks = count.div_ceil(FULL_BLOCK);
    let between = draw.place(blocks);
    let edges = [1, between, blocks - 1].map(|block| block * FULL_BLOCK);
    let mut positions: BTreeSet<usize> = edges.into();
    positions.extend(edges.map(|edge| edge.saturating_sub(1)));
    positions.extend([0, count - 1, count.saturating_sub(2)]);
    positions.extend((0..3).map(|_| draw.place(count)));
    positions.retain(|&position| position < count);
    positions
}

/// Bytes to lend behind a book, none of them 0: up to some blocks, about one, or none.
fn draw_behind(draw: &mut Draw) -> Vec<u8> {
    let some = 1 + draw.place(4 * BLOCK);
    let length = draw.pick(&[some, some, 1, BLOCK - 1, BLOCK, BLOCK + 1, 0]);
    (0..length).map(|_| draw.within(1..=255) as u8).collect()
}

fn strike(followed: &mut Followed, position: usize, number: u64) {
    let day = followed.book.valuation_day;
    let answer = followed.run(Call::Strike { position }, day, number);
    assert_eq!(answer.number, 0, "case {number}, position {position}");
}

/// That the book is accepted by both, and that the second implementation takes
/// every trade from it.
fn assert_accepted(followed: &Followed) {
    let Followed { book, lent, used } = followed;
    assert_eq!(seddolki::lent::check(lent, *used), DONE);
    let trades = accept(lent, *used).map(|accepted| accepted.trades);
    assert_eq!(trades.as_ref(), Ok(&book.trades));
}

/// That the engine reads the book's own trades at these positions, and none
/// behind the last.
fn assert_reads_back(followed: &Followed, positions: impl IntoIterator<Item = usize>) {
    let Followed { book, lent, used } = followed;
    let read = |position| {
        let mut record = [7; RECORD];
        let answer = seddolki::lent::read(lent, *used, position, &mut record);
        (answer, Record::decode(&record))
    };
    for position in positions {
        assert_eq!(read(position), (DONE, book.trades[position]));
    }
    assert_eq!(read(book.trades.len()).0.number, 14);
}

/// All of a few positions; of many those beside edges and beside the one that
/// was struck.
fn draw_read(draw: &mut Draw, count: usize, struck: usize) -> BTreeSet<usize> {
    if count < FEW {
        return (0..count).collect();
    }
    let mut positions = draw_positions(draw, count);
    positions.extend(struck.saturating_sub(1)..count.min(struck + 2));
    positions
}

/// Strikes one trade and looks at all that is left.
fn strike_one(draw: &mut Draw, book: &Book, position: usize, number: u64) {
    let behind = draw_behind(draw);
    let mut followed = Followed::new(book.clone(), &behind);
    let used = followed.used;
    strike(&mut followed, position, number);
    let count = followed.book.trades.len();
    let emptied = if count.is_multiple_of(FULL_BLOCK) {
        BLOCK
    } else {
        0
    };
    assert_eq!(followed.used + emptied, used, "case {number}");
    assert_eq!(followed.lent[followed.used..used], vec![0; emptied]);
    assert_eq!(followed.lent[used..], behind);
    assert_accepted(&followed);
    assert_reads_back(&followed, draw_read(draw, count, position));
}

#[test]
fn a_strike_beside_any_edge_of_a_block_takes_out_one_record_and_keeps_the_others() {
    let seeds = Seeds::of_this_run();
    let mut strikes = 0;
    for curves in CURVES {
        let mut draw = seeds.draw(curves.into());
        let full = draw_full_book(&mut draw, curves.into());
        for count in counts(full.trades.len()) {
            let book = draw_part(&mut draw, &full, count);
            for position in draw_positions(&mut draw, count) {
                strike_one(&mut draw, &book, position, strikes);
                strikes += 1;
            }
        }
    }
    println!("{strikes} strikes");
}

/// Strikes every trade, the next one by how many are left.
fn strike_all(draw: &mut Draw, book: &Book, next: impl Fn(usize) -> usize) {
    let behind = draw_behind(draw);
    let mut followed = Followed::new(book.clone(), &behind);
    for left in (1..=book.trades.len()).rev() {
        strike(&mut followed, next(left), left as u64);
    }
    assert_eq!(followed.used, (1 + book.curves.len()) * BLOCK);
    assert_accepted(&followed);
    assert_reads_back(&followed, []);
}

#[test]
fn a_book_is_struck_down_to_none_from_the_front_the_middle_and_the_back() {
    let seeds = Seeds::of_this_run();
    for curves in CURVES {
        let mut draw = seeds.draw(curves.into());
        let full = draw_full_book(&mut draw, curves.into());
        let few = draw_part(&mut draw, &full, FEW);
        let is_longest = curves == *CURVES.start() && is_whole();
        let book = if is_longest { full } else { few };
        strike_all(&mut draw, &book, |_| 0);
        strike_all(&mut draw, &book, |left| left / 2);
        strike_all(&mut draw, &book, |left| left - 1);
    }
}
