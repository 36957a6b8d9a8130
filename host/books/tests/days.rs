//! Drawn days: books are for every kind of day, and other days differ from
//! theirs in every way.

use seddolki_books::{
    assemble, damage_book, draw_book, draw_day, draw_other_day, draw_valuation_day, Draw, OtherDay,
    Tally,
};
use seddolki_model::{list, Book, Date, Ground, Header, Layout, BLOCK};
use std::collections::BTreeSet;

/// Bounds the time of a margin.
const WORK: usize = 100;

#[test]
fn books_are_for_days_of_every_length() {
    let days: Vec<Date> = (0..2_000)
        .map(|seed| draw_valuation_day(&mut Draw::new(seed)))
        .collect();
    let count = |asked: &dyn Fn(Date) -> bool| days.iter().filter(|&&day| asked(day)).count();
    assert!(count(&|day| day == Date::FIRST) >= 50);
    assert!(count(&|day| day == Date::LAST) >= 50);
    assert!(count(&|day| day.calendar().0 == 2026) >= 200);
    for bytes in 1..=4 {
        let of_length = |day: Date| (u32::BITS - day.days().leading_zeros()).div_ceil(8) == bytes;
        assert!(count(&of_length) >= 100, "{bytes} bytes");
    }
    let unlike = |day: Date| BTreeSet::from(day.days().to_le_bytes()).len() == 4;
    assert!(count(&unlike) >= 50);
}

#[test]
fn the_day_given_is_mostly_the_book_s_and_differs_in_every_way() {
    let (mut own, mut others) = (0, Tally::default());
    for seed in 0..4_000 {
        let mut draw = Draw::new(seed);
        let book = draw_valuation_day(&mut draw);
        let other = draw_other_day(&mut draw, book);
        others.add(OtherDay::of(book, other).expect("another day"));
        own += u64::from(draw_day(&mut draw, book) == book);
    }
    others.assert_all(OtherDay::ALL, 100);
    assert!((3_000..3_900).contains(&own), "{own}");
}

#[test]
fn ways_to_differ_are_told_apart() {
    for (book, given, way) in [
        (9_815, 9_815, None),
        (9_815, 9_816, Some(OtherDay::Yesterday)),
        (9_815, 9_814, Some(OtherDay::Tomorrow)),
        (0xffff, 0x1_0000, Some(OtherDay::Yesterday)),
        (9_815, 9_817, Some(OtherDay::Byte(0))),
        (0x0102_0304, 0x0102_0404, Some(OtherDay::Byte(1))),
        (0x0102_0304, 0x0103_0304, Some(OtherDay::Byte(2))),
        (0x0102_0304, 0x8102_0304, Some(OtherDay::Byte(3))),
        (0x0102_0304, 0x0002_0300, Some(OtherDay::SomeBytes)),
        (0, u32::MAX, Some(OtherDay::EveryByte)),
        (u32::MAX, 0, Some(OtherDay::EveryByte)),
    ] {
        let [book, given] = [book, given].map(Date::from_days);
        assert_eq!(OtherDay::of(book, given), way, "{book} and {given}");
    }
}

#[test]
fn the_list_is_the_same_on_every_day() {
    for seed in 0..50 {
        let mut draw = Draw::new(seed);
        let book = draw_book(&mut draw, WORK);
        let text = list(&assemble(&book));
        let valuation_day = draw_other_day(&mut draw, book.valuation_day);
        let other = Book {
            valuation_day,
            ..book
        };
        assert_eq!(list(&assemble(&other)), text, "seed {seed}");
    }
}

#[test]
fn a_spoiled_header_has_the_book_s_day_and_other_bytes_wrong() {
    let mut behind = BTreeSet::new();
    for seed in 0..2_000 {
        let mut draw = Draw::new(seed);
        let book = draw_book(&mut draw, WORK);
        let (spoiled, _) = damage_book(&mut draw, &book, Ground::Header).unwrap();
        let header = Header::decode(&spoiled);
        assert_eq!(header.valuation_day, book.valuation_day.days());
        let whole = assemble(&book);
        behind.extend((16..BLOCK - 4).find(|&at| spoiled[at] != whole[at]));
    }
    assert!(behind.len() >= 200, "{}", behind.len());
}
