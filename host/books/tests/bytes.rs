//! The bytes of a book and of a report, place by place.

use seddolki_books::buyer;
use seddolki_model::{margin, Date, BLOCK};

fn put(bytes: &mut [u8], at: usize, value: &[u8]) {
    bytes[at..at + value.len()].copy_from_slice(value);
}

/// The check, by sums that do not wrap.
fn put_check(block: &mut [u8]) {
    let words = (0..127).map(|i| u32::from_le_bytes(block[4 * i..][..4].try_into().unwrap()));
    let sum = words.map(u64::from).sum::<u64>() + 1;
    put(block, 508, &sum.to_le_bytes()[..4]);
}

fn header() -> [u8; BLOCK] {
    let mut block = [0; BLOCK];
    put(&mut block, 0, &[1]);
    put(&mut block, 4, &7u32.to_le_bytes());
    put(&mut block, 8, &1u16.to_le_bytes());
    put(&mut block, 10, &1u16.to_le_bytes());
    put_check(&mut block);
    block
}

fn curve() -> [u8; BLOCK] {
    let mut block = [0; BLOCK];
    put(&mut block, 0, &[2]);
    put(&mut block, 2, &1u16.to_le_bytes());
    put(&mut block, 4, &[1, 1, 2, 1, 0, 0]);
    put(&mut block, 12, &300u16.to_le_bytes());
    for (at, day) in [(20, 365u16), (40, 730)] {
        put(&mut block, at, &day.to_le_bytes());
        put(&mut block, at + 4, &250_000u32.to_le_bytes());
        put(&mut block, at + 8, &250_000i32.to_le_bytes());
    }
    put_check(&mut block);
    block
}

fn trades() -> [u8; BLOCK] {
    let mut block = [0; BLOCK];
    put(&mut block, 0, &[3, 1, 2, 0]);
    put(&mut block, 4, &[1, 1, 0, 1, 1, 1]);
    put(&mut block, 4 + 12, &365u16.to_le_bytes());
    put(&mut block, 4 + 24, &100_000u64.to_le_bytes());
    put(&mut block, 4 + 40, &700_000u32.to_le_bytes());
    put_check(&mut block);
    block
}

#[test]
fn the_buyers_book() {
    assert_eq!(buyer(), [header(), curve(), trades()].concat());
}

#[test]
fn the_buyers_report() {
    let mut expected = [0; BLOCK];
    put(&mut expected, 0, &[9]);
    put(&mut expected, 4, &7u32.to_le_bytes());
    put(&mut expected, 8, &10_000i64.to_le_bytes());
    put(&mut expected, 16, &30_000i64.to_le_bytes());
    put(&mut expected, 24, &2u32.to_le_bytes());
    put(&mut expected, 28, &1u32.to_le_bytes());
    put(&mut expected, 32, &1u64.to_le_bytes());
    put(&mut expected, 264, &30_000i64.to_le_bytes());
    put(&mut expected, 272, &10_000i64.to_le_bytes());
    put(&mut expected, 280, &(-20_000i64).to_le_bytes());
    put_check(&mut expected);
    let (book, mut report) = (buyer(), [0xaa; BLOCK]);
    assert_eq!(
        margin(&book, book.len(), Date::FIRST, &mut report).number,
        0
    );
    assert_eq!(report, expected);
}
