//! Append, read and strike.

use seddolki_books::{assemble, bytes_after, draw_book, draw_record, most_trades, Draw};
use seddolki_model::{
    accept, append, read, strike, Answer, Ground, Layout, Record, BLOCK, FULL_BLOCK, RECORD,
};

const WORK: usize = 1_000;

fn done(value: usize) -> Answer {
    Ok(value as u64).into()
}

fn read_at(bytes: &[u8], used: usize, position: usize) -> Record {
    let mut record = [7; RECORD];
    assert_eq!(read(bytes, used, position, &mut record), done(0));
    Record::decode(&record)
}

#[test]
fn an_appended_record_is_read_and_struck_again() {
    for seed in 0..200 {
        let mut draw = Draw::new(seed);
        let mut book = draw_book(&mut draw, WORK);
        let mut bytes = assemble(&book);
        let used = bytes.len();
        bytes.extend(draw.bytes(2 * BLOCK + 3));
        let before = bytes.clone();
        let record = draw_record(&mut draw, &book.curves, 120);
        let answer = append(&mut bytes, used, book.valuation_day, &record.to_bytes());
        let position = book.trades.len();
        if position == most_trades(&book.curves) {
            assert_eq!(answer, Err(Ground::BookSpace.alone()).into());
            assert_eq!(bytes, before);
            continue;
        }
        book.trades.push(record);
        let grown = assemble(&book).len();
        assert_eq!(answer, done(grown));
        assert_eq!(bytes, bytes_after(&book, &before, used));
        assert_eq!(read_at(&bytes, grown, position), record);
        book.trades.pop();
        let appended = bytes.clone();
        assert_eq!(
            strike(&mut bytes, grown, book.valuation_day, position),
            done(used)
        );
        assert_eq!(bytes, bytes_after(&book, &appended, grown));
    }
}

#[test]
fn a_struck_record_leaves_no_gap() {
    for seed in 0..200 {
        let mut draw = Draw::new(seed);
        let mut book = draw_book(&mut draw, WORK);
        if book.trades.is_empty() {
            continue;
        }
        let mut bytes = assemble(&book);
        let used = bytes.len();
        bytes.extend(draw.bytes(700));
        let before = bytes.clone();
        let position = draw.place(book.trades.len());
        book.trades.remove(position);
        let answer = strike(&mut bytes, used, book.valuation_day, position);
        assert_eq!(answer, done(assemble(&book).len()));
        assert_eq!(bytes, bytes_after(&book, &before, used));
    }
}

#[test]
fn a_book_struck_empty_is_filled_again() {
    for seed in 0..40 {
        let mut draw = Draw::new(seed);
        let mut book = draw_book(&mut draw, WORK);
        book.trades.truncate(40);
        let whole = assemble(&book);
        let (mut bytes, mut used) = (whole.clone(), whole.len());
        let day = book.valuation_day;
        for remaining in (0..book.trades.len()).rev() {
            let position = draw.place(remaining + 1);
            used = strike(&mut bytes, used, day, position).value as usize;
        }
        assert_eq!(used, (1 + book.curves.len()) * BLOCK);
        assert!(bytes[used..].iter().all(|&byte| byte == 0));
        assert!(accept(&bytes, used).unwrap().trades.is_empty());
        for record in &book.trades {
            used = append(&mut bytes, used, day, &record.to_bytes()).value as usize;
        }
        assert_eq!((bytes, used), (whole.clone(), whole.len()));
    }
}

#[test]
fn every_record_is_read_and_no_more() {
    for seed in 0..100 {
        let book = draw_book(&mut Draw::new(seed), WORK);
        let bytes = assemble(&book);
        let count = book.trades.len();
        for position in [0, 1, 8, 9, 10, count / 2, count.wrapping_sub(1)] {
            if position < count {
                assert_eq!(
                    read_at(&bytes, bytes.len(), position),
                    book.trades[position]
                );
            }
        }
        for position in [count, usize::MAX] {
            let mut record = [7; RECORD];
            let answer = read(&bytes, bytes.len(), position, &mut record);
            assert_eq!(answer, Err(Ground::Position.alone()).into());
            assert_eq!(record, [0; RECORD]);
        }
    }
}

#[test]
fn a_new_block_needs_lent_bytes() {
    for seed in 0..100 {
        let mut draw = Draw::new(seed);
        let mut book = draw_book(&mut draw, WORK);
        book.trades.truncate(18);
        let record = draw_record(&mut draw, &book.curves, 120);
        let needs_block = book.trades.len().is_multiple_of(FULL_BLOCK);
        let mut bytes = assemble(&book);
        let used = bytes.len();
        let add = |bytes: &mut [u8]| append(bytes, used, book.valuation_day, &record.to_bytes());
        let without = add(&mut bytes);
        if needs_block {
            assert_eq!(without, Err(Ground::BookSpace.alone()).into());
            bytes.resize(used + BLOCK - 1, 1);
            assert_eq!(add(&mut bytes), without);
            bytes.push(1);
            assert_eq!(add(&mut bytes), done(used + BLOCK));
        } else {
            assert_eq!(without, done(used));
        }
    }
}
