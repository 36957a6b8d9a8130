//! The drawn books are accepted and reach what they are meant to reach.

use seddolki_books::{
    assemble, draw_book, form_of, forms, full_book, small_book, typical_book, Draw,
};
use seddolki_model::{
    accept, cash_flows, check, scenarios, Answer, Book, CashFlow, Record, BLOCK, FULL_BLOCK,
    MAX_AMOUNT, MAX_BLOCKS, MAX_DAY, MAX_RATE,
};
use std::collections::BTreeSet;

const SEEDS: u64 = 400;
const WORK: usize = 5_000;

fn book(seed: u64) -> Book {
    draw_book(&mut Draw::new(seed), WORK)
}

#[test]
fn drawn_books_are_accepted_and_round_trip() {
    let done = Answer {
        number: 0,
        value: 0,
    };
    for seed in 0..SEEDS {
        let bytes = assemble(&book(seed));
        assert_eq!(check(&bytes, bytes.len()), done, "seed {seed}");
        let accepted = accept(&bytes, bytes.len()).unwrap();
        assert_eq!(assemble(&accepted), bytes, "seed {seed}");
    }
}

#[test]
fn the_same_seed_gives_the_same_book() {
    for seed in 0..20 {
        assert_eq!(book(seed), book(seed));
        assert_ne!(book(seed), book(seed + 1));
    }
}

#[test]
fn every_combination_is_used_with_each_security() {
    let used: BTreeSet<_> = (0..SEEDS)
        .flat_map(|seed| book(seed).trades)
        .map(|record| form_of(&record))
        .collect();
    assert!(forms().all(|form| used.contains(&form_of(&form))));
}

/// Counts the books that have what is asked.
fn books_with(asked: impl Fn(&Book) -> bool) -> usize {
    (0..SEEDS).filter(|&seed| asked(&book(seed))).count()
}

fn any_trade(asked: impl Fn(&Record) -> bool) -> impl Fn(&Book) -> bool {
    move |book| book.trades.iter().any(&asked)
}

fn any_flow(asked: impl Fn(&CashFlow) -> bool) -> impl Fn(&Book) -> bool {
    any_trade(move |record| cash_flows(record).iter().any(&asked))
}

#[test]
fn books_reach_the_limits_of_a_book() {
    let blocks = |book: &Book| assemble(book).len() / BLOCK;
    assert!(books_with(|book| blocks(book) == MAX_BLOCKS) >= 5);
    assert!(books_with(|book| book.trades.is_empty()) >= 20);
    let full = |book: &Book| book.trades.len().is_multiple_of(FULL_BLOCK);
    assert!(books_with(|book| full(book) && !book.trades.is_empty()) >= 40);
    assert!(books_with(|book| book.curves.len() == 1) >= 20);
    assert!(books_with(|book| book.curves.len() == 8) >= 20);
}

#[test]
fn books_reach_the_limits_of_a_curve() {
    let any_node = |asked: fn(u64) -> bool| {
        move |book: &Book| {
            let mut nodes = book.curves.iter().flat_map(|curve| curve.nodes());
            nodes.any(|node| asked(node.rate.into()))
        }
    };
    let any_count = |count: u8| move |b: &Book| b.curves.iter().any(|c| c.node_count == count);
    assert!(books_with(any_node(|rate| rate == 0)) >= 100);
    assert!(books_with(any_node(|rate| rate == MAX_RATE)) >= 100);
    assert!(books_with(any_count(2)) >= 40);
    assert!(books_with(any_count(24)) >= 40);
    let scenarios_343 = |book: &Book| book.curves.iter().any(|c| c.steps == [3; 3]);
    assert!(books_with(scenarios_343) >= 10);
}

#[test]
fn books_reach_the_limits_of_a_trade() {
    assert!(books_with(any_flow(|flow| flow.amount == MAX_AMOUNT.into())) >= 100);
    assert!(books_with(any_flow(|flow| flow.amount == 0)) >= 40);
    assert!(books_with(any_flow(|flow| flow.day == MAX_DAY)) >= 100);
    assert!(books_with(any_flow(|flow| flow.day == 0)) >= 100);
    assert!(books_with(any_trade(|r| r.payments == 120)) >= 10);
    assert!(books_with(any_trade(|r| r.term == 730)) >= 100);
    assert!(books_with(any_trade(|r| r.is_repo() && r.price_or_rate == 0)) >= 100);
    assert!(books_with(any_trade(|r| u64::from(r.price_or_rate) == MAX_RATE)) >= 100);
    let no_day_behind = |r: &Record| r.has_security() && u64::from(r.value_day_2) == MAX_DAY;
    assert!(books_with(any_trade(no_day_behind)) >= 40);
}

#[test]
fn books_have_repos_of_every_way_to_pay() {
    let ends = |r: &Record| (u64::from(r.first_payment_day), r.last_payment_day());
    let pays = |first: bool, last: bool| {
        any_trade(move |r| {
            let (first_day, last_day) = ends(r);
            let inside = (r.in_term(first_day), r.in_term(last_day));
            r.is_repo() && r.has_security() && inside == (first, last)
        })
    };
    assert!(books_with(pays(true, true)) >= 100);
    assert!(books_with(pays(true, false)) >= 100);
    assert!(books_with(pays(false, false)) >= 100);
}

#[test]
fn the_timed_books_are_accepted_and_of_their_sizes() {
    for (book, curves, trades, blocks) in [
        (small_book(), 1, 5, 3),
        (typical_book(), 3, 200, 27),
        (full_book(), 8, 1_071, 128),
    ] {
        let bytes = assemble(&book);
        assert_eq!(check(&bytes, bytes.len()).number, 0);
        assert_eq!((book.curves.len(), book.trades.len()), (curves, trades));
        assert_eq!(bytes.len(), blocks * BLOCK);
        assert!(book.curves.iter().all(|c| scenarios(c).len() == 343));
        let inside = |r: &Record| r.in_term(r.first_payment_day.into());
        assert!(!book.trades.iter().any(inside));
    }
}
