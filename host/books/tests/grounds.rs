//! Every ground of refusal is answered where its sentence holds.

use seddolki_books::{
    assemble, damage_book, damage_record, draw_bad_used, draw_book, draw_record, Draw,
};
use seddolki_model::{
    append, check, list, preview, Answer, Ground, Layout, BLOCK, FULL_BLOCK, MAX_BLOCKS,
};
use std::collections::BTreeMap;

const WORK: usize = 1_000;

fn refused(ground: Ground, block: usize) -> Answer {
    Err(ground.in_block(block)).into()
}

#[test]
fn a_book_spoiled_for_a_ground_is_refused_by_it() {
    let mut spoiled = BTreeMap::new();
    for seed in 0..300 {
        let mut draw = Draw::new(seed);
        let book = draw_book(&mut draw, WORK);
        for &ground in &Ground::ON_BOOK[1..] {
            let Some((bytes, block)) = damage_book(&mut draw, &book, ground) else {
                continue;
            };
            let answer = check(&bytes, bytes.len());
            assert_eq!(answer, refused(ground, block), "seed {seed}");
            *spoiled.entry(ground).or_insert(0) += 1;
        }
    }
    for ground in &Ground::ON_BOOK[1..] {
        assert!(spoiled[ground] >= 50, "{ground:?}");
    }
}

#[test]
fn a_bad_length_is_refused_by_ground_1() {
    for seed in 0..1_000 {
        let mut draw = Draw::new(seed);
        let lent = draw.place(2 * MAX_BLOCKS * BLOCK);
        let used = draw_bad_used(&mut draw, lent);
        assert_eq!(check(&vec![1; lent], used), refused(Ground::Length, 0));
    }
}

#[test]
fn a_spoiled_record_is_refused_for_the_block_it_would_take() {
    let mut spoiled = BTreeMap::new();
    for seed in 0..400 {
        let mut draw = Draw::new(seed);
        let book = draw_book(&mut draw, WORK);
        let mut bytes = assemble(&book);
        let before = bytes.clone();
        let (used, day) = (before.len(), book.valuation_day);
        let block = 1 + book.curves.len() + book.trades.len() / FULL_BLOCK;
        for &ground in Ground::ON_RECORD {
            let record = draw_record(&mut draw, &book.curves, 120);
            if let Some(record) = damage_record(&mut draw, &record, &book.curves, ground) {
                let answer = append(&mut bytes, used, day, &record.to_bytes());
                assert_eq!(answer, refused(ground, block), "seed {seed} {record:?}");
                let shown = preview(&bytes, used, day, &record.to_bytes(), &mut []);
                assert_eq!(shown, answer, "seed {seed} {record:?}");
                assert_eq!(bytes, before);
                *spoiled.entry(ground).or_insert(0) += 1;
            }
        }
    }
    for ground in Ground::ON_RECORD {
        assert!(spoiled[ground] >= 100, "{ground:?}");
    }
}

#[test]
fn a_refused_book_lists_one_line() {
    assert_eq!(list(&[]), "refused 1 0\n");
    for seed in 0..30 {
        let mut draw = Draw::new(seed);
        let book = draw_book(&mut draw, WORK);
        let (bytes, block) = damage_book(&mut draw, &book, Ground::Node).unwrap();
        assert_eq!(list(&bytes), format!("refused 6 {block}\n"));
    }
}
