//! Whole books, and the same books spoiled for every ground.

use seddolki_books::{
    assemble, assert_near_exact, damage_book, draw_book, draw_day, form_of, forms, near_tie_book,
    small_book, typical_book, undiscounted_book, zero_component_book, Call, Case, Draw, Engine,
};
use seddolki_compare::{assert_alike, books, is_whole, margin_case, report_of, whole_case, Seeds};
use seddolki_model::{
    accept_on, cash_flows, exact_valuation, signs_of, Book, Date, Ground, Node, Record, BLOCK,
    MAX_AMOUNT, MAX_BLOCKS, MAX_DAY, MAX_RATE, MAX_STEPS, NODES,
};
use std::collections::{BTreeMap, BTreeSet};

/// Bounds the time of a margin.
const WORK: usize = 2_000;

/// What the books of a run have had in them.
#[derive(Default)]
struct Reached {
    /// Kind, phase, side and security.
    forms: BTreeSet<(u8, u8, u8, u8)>,
    /// Kind, phase and side, with as many flows other than 0 as the table
    /// gives legs.
    with_flows: BTreeSet<(u8, u8, u8)>,
    boundaries: BTreeSet<&'static str>,
}

impl Reached {
    fn add(&mut self, book: &Book) {
        for trade in &book.trades {
            self.forms.insert(form_of(trade));
            self.add_flows(trade);
        }
        let blocks = assemble(book).len() / BLOCK;
        self.reach("128 blocks", blocks == MAX_BLOCKS);
        self.reach("no trade", book.trades.is_empty());
        self.reach("8 curves", book.curves.len() == 8);
        self.add_day(book.valuation_day);
        for curve in &book.curves {
            let has_flows = !book.flows_on(curve).is_empty();
            self.reach("343 scenarios", curve.steps == [MAX_STEPS; 3] && has_flows);
            self.reach("one scenario", curve.steps == [0; 3] && has_flows);
            self.add_nodes(curve.nodes());
        }
    }

    fn add_day(&mut self, day: Date) {
        self.reach("first of all days", day == Date::FIRST);
        self.reach("last of all days", day == Date::LAST);
        self.reach("a day of 2026", day.calendar().0 == 2026);
        let bytes = BTreeSet::from(day.days().to_le_bytes());
        self.reach("a day of four unlike bytes", bytes.len() == 4);
    }

    fn add_nodes(&mut self, nodes: &[Node]) {
        let any = |rate: u64| nodes.iter().any(|node| u64::from(node.rate) == rate);
        self.reach("rate of 0", any(0));
        self.reach("largest rate", any(MAX_RATE));
        self.reach("fewest nodes", nodes.len() == usize::from(*NODES.start()));
        self.reach("most nodes", nodes.len() == usize::from(*NODES.end()));
    }

    fn add_flows(&mut self, trade: &Record) {
        let flows = cash_flows(trade);
        let signs = signs_of(trade).expect("the book was accepted");
        let legs = [signs.first_leg, signs.second_leg, signs.payments];
        let given = legs.iter().filter(|&&sign| sign != 0).count();
        if flows.iter().filter(|flow| flow.amount != 0).count() >= given {
            self.with_flows
                .insert((trade.kind, trade.phase, trade.side));
        }
        let any = |amount: u128| flows.iter().any(|flow| flow.amount == amount);
        self.reach("largest flow", any(MAX_AMOUNT.into()));
        self.reach("flow of 0", any(0));
        self.reach("last day", flows.iter().any(|flow| flow.day == MAX_DAY));
        self.reach("today", flows.iter().any(|flow| flow.day == 0));
    }

    fn reach(&mut self, boundary: &'static str, reached: bool) {
        if reached {
            self.boundaries.insert(boundary);
        }
    }

    fn assert_all(&self) {
        for form in forms() {
            let with_flows = (form.kind, form.phase, form.side);
            assert!(self.with_flows.contains(&with_flows));
            assert!(self.forms.contains(&form_of(&form)));
        }
        assert_eq!(self.boundaries.len(), 17, "{:?}", self.boundaries);
    }
}

#[test]
fn margins_are_the_same_on_books_that_reach_every_form_and_boundary() {
    let seeds = Seeds::of_this_run();
    let mut reached = Reached::default();
    for number in 0..books() {
        let mut draw = seeds.draw(number);
        let book = draw_book(&mut draw, WORK);
        let outcome = assert_alike(&margin_case(&mut draw, assemble(&book)), number);
        assert_eq!(outcome.answer.number, 0);
        reached.add(&book);
    }
    if is_whole() {
        reached.assert_all();
    }
}

#[test]
fn margins_are_the_same_on_the_books_that_times_are_taken_on() {
    let mut draw = Draw::new(1);
    let books = [
        small_book(),
        typical_book(),
        near_tie_book(),
        zero_component_book(),
    ];
    for (number, book) in (1..).zip(books) {
        let outcome = assert_alike(&margin_case(&mut draw, assemble(&book)), number);
        assert_eq!(outcome.answer.number, 0);
    }
}

#[test]
fn spoiled_books_are_refused_by_the_ground_they_were_spoiled_for() {
    let seeds = Seeds::of_this_run();
    let mut refused: BTreeMap<Ground, u64> = BTreeMap::new();
    for number in 0..books() {
        let mut draw = seeds.draw(number);
        let book = draw_book(&mut draw, WORK);
        let ground = draw.pick(&Ground::ON_BOOK[1..]);
        let Some((bytes, block)) = damage_book(&mut draw, &book, ground) else {
            continue;
        };
        for case in [
            whole_case(bytes.clone(), Call::Check {}),
            margin_case(&mut draw, bytes),
        ] {
            let outcome = assert_alike(&case, number);
            assert_eq!(outcome.answer, Err(ground.in_block(block)).into());
        }
        *refused.entry(ground).or_default() += 1;
    }
    println!("{refused:?}");
    for ground in &Ground::ON_BOOK[1..] {
        assert!(!is_whole() || refused.contains_key(ground), "{ground:?}");
    }
}

/// A book that is accepted on the day that margin was given has a report that
/// keeps demand 3; of another one nothing is shown.
fn assert_shown(case: &Case) -> bool {
    let outcome = case.run(Engine::Proved);
    match accept_on(&case.lent, case.used, case.day) {
        Ok(book) => {
            assert_near_exact(&book, &report_of(&outcome));
            true
        }
        Err(refusal) => {
            assert_eq!(outcome.answer, Err(refusal).into());
            assert!(outcome.after == *case);
            false
        }
    }
}

#[test]
fn reports_keep_exactness_on_the_day_that_margin_was_given() {
    let seeds = Seeds::of_this_run();
    let mut shown = 0;
    for number in 0..books() / 20 {
        println!("book {number}");
        let mut draw = seeds.draw(number);
        let book = draw_book(&mut draw, 5 * WORK);
        let case = margin_case(&mut draw, assemble(&book));
        let day = draw_day(&mut draw, case.day);
        shown += u64::from(assert_shown(&Case { day, ..case }));
    }
    println!("{shown} reports");
    assert!(!is_whole() || (books() / 40..books() / 20).contains(&shown));
}

/// Payments of half a kuruş each, in thirteen years at 100%. The factor is cut
/// to 122,070,312 from 10^12 / 2^13, which leaves less than the half; a
/// tolerance is 2 × 4,096 × 13 / 10^12, rounded up.
#[test]
fn a_report_may_be_as_far_from_the_exact_figures_as_its_tolerance() {
    let mut book = undiscounted_book();
    for node in &mut book.curves[0].places[..2] {
        node.rate = MAX_RATE as u32;
    }
    let payment = Record {
        first_payment_day: 13 * 365,
        nominal: 4_096,
        price_or_rate: 1_000_000,
        ..book.trades[0]
    };
    book.trades = vec![payment; 100];
    let case = margin_case(&mut Draw::new(1), assemble(&book));
    let report = report_of(&assert_alike(&case, 0));
    assert_near_exact(&book, &report);
    let (shown, exact) = (report.curves[0], exact_valuation(&book, &book.curves[0]));
    assert_eq!((shown.base, shown.tolerance), (100 * -4_096, 100));
    assert_eq!(exact.base, 100 * (1 - 4_096));
}
