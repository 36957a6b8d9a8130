//! Curves lengthened by drawn quotes: what is written, and which ground
//! answers where none is.

use seddolki_books::{
    added_node, assemble, damage_book, damage_quote, draw_book, draw_quote, Call, Case, Draw,
    Engine, Outcome, QuoteDamage,
};
use seddolki_model::{
    accept, accept_quote, bond_value, bootstrap, curve_figures, quote_fault, rule, settlement_cash,
    Answer, Book, Curve, Ground, Quote, Record, MAX_DAY, MAX_RATE,
};
use std::collections::BTreeMap;

const WORK: usize = 200;

/// A drawn book and a quote for it.
fn drawn(seed: u64) -> (Draw, Book, Quote) {
    let mut draw = Draw::new(seed);
    let book = draw_book(&mut draw, WORK);
    let quote = draw_quote(&mut draw, &book.curves);
    (draw, book, quote)
}

/// Of drawn books, those that accept the quote drawn for them.
fn accepted(seeds: u64) -> impl Iterator<Item = (Draw, Book, Quote)> {
    let accepts =
        |(_, book, quote): &(Draw, Book, Quote)| accept_quote(quote, &book.curves).is_ok();
    (0..seeds).map(drawn).filter(accepts)
}

fn has_room(curve: &Curve) -> bool {
    curve.nodes().len() < 24 && u64::from(curve.last_node().day) < MAX_DAY
}

#[test]
fn a_drawn_quote_is_accepted_where_a_curve_has_room() {
    let mut without = 0;
    for seed in 0..2_000 {
        let (_, book, quote) = drawn(seed);
        let verdict = accept_quote(&quote, &book.curves);
        if book.curves.iter().any(has_room) {
            assert_eq!(verdict, Ok(()), "seed {seed}");
        } else {
            assert_eq!(verdict, Err(Ground::CurveEnd), "seed {seed}");
            without += 1;
        }
    }
    assert!(without >= 20, "{without}");
}

/// A bootstrap in more bytes than the book's.
fn run(draw: &mut Draw, book: &Book, quote: Quote) -> (Case, Outcome) {
    let mut lent = assemble(book);
    let used = lent.len();
    lent.extend(draw.bytes(700));
    let call = Call::Bootstrap { quote };
    let case = Case {
        lent,
        used,
        day: book.valuation_day,
        call,
    };
    let outcome = case.run(Engine::Model);
    (case, outcome)
}

#[test]
fn the_new_node_is_written_and_nothing_else() {
    for (mut draw, mut book, quote) in accepted(1_000) {
        let (case, outcome) = run(&mut draw, &book, quote);
        assert_eq!(outcome.answer, Ok(0).into());
        let node = added_node(&outcome, &quote);
        let curve = &mut book.curves[quote.curve - 1];
        curve.places[curve.nodes().len()] = node;
        curve.node_count += 1;
        let left = [&assemble(&book), &case.lent[case.used..]].concat();
        assert_eq!(outcome.after.lent, left);
        let due = (quote.purchase().last_payment_day(), quote.components);
        assert_eq!((node.day.into(), node.components), due);
    }
}

#[test]
fn the_rate_is_the_smallest_that_fits() {
    for (mut draw, book, quote) in accepted(1_000) {
        let (_, outcome) = run(&mut draw, &book, quote);
        let rate = u64::from(added_node(&outcome, &quote).rate);
        let curve = &book.curves[quote.curve - 1];
        let value = |rate| bond_value(curve, &quote, rate);
        assert!(value(rate) <= quote.cash, "{quote:?}");
        let higher = draw.within(rate..=MAX_RATE);
        assert!(value(higher) <= value(rate), "{quote:?}");
        if rate > 0 {
            assert!(value(rate - 1) > quote.cash, "{quote:?}");
            let lower = draw.within(0..=rate - 1);
            assert!(value(lower) >= value(rate - 1), "{quote:?}");
        }
    }
}

#[test]
fn the_margin_values_the_bond_on_the_lengthened_curve_alike() {
    for (mut draw, mut book, quote) in accepted(300) {
        let (_, outcome) = run(&mut draw, &book, quote);
        let rate = added_node(&outcome, &quote).rate.into();
        let value = bond_value(&book.curves[quote.curve - 1], &quote, rate);
        book = accept(&outcome.after.lent, outcome.after.used).unwrap();
        let id = quote.curve as u8;
        let trade = Record {
            security_curve: id,
            cash_curve: id,
            price_or_rate: 1,
            ..quote.purchase()
        };
        book.trades = vec![trade];
        let cash = settlement_cash(trade.nominal, 1, 0);
        let curve = &book.curves[quote.curve - 1];
        let base = curve_figures(&book, curve).base;
        assert_eq!(base + cash as i64, value as i64, "{quote:?}");
    }
}

fn refused(damage: QuoteDamage) -> Answer {
    Err(damage.ground().alone()).into()
}

#[test]
fn a_spoiled_quote_is_refused_by_its_ground_and_writes_nothing() {
    let mut spoiled = BTreeMap::new();
    for (mut draw, book, quote) in accepted(600) {
        for damage in QuoteDamage::ALL {
            let Some(quote) = damage_quote(&mut draw, &quote, &book.curves, damage) else {
                continue;
            };
            let (case, outcome) = run(&mut draw, &book, quote);
            assert_eq!(outcome.answer, refused(damage), "{quote:?}");
            assert_eq!(outcome.after, case);
            assert_eq!(QuoteDamage::of(&quote, &book.curves), Some(damage));
            *spoiled.entry(damage).or_insert(0) += 1;
        }
    }
    println!("{spoiled:?}");
    for damage in QuoteDamage::ALL {
        assert!(spoiled[&damage] >= 50, "{damage:?}");
    }
}

#[test]
fn the_first_of_two_damages_answers() {
    let mut pairs = BTreeMap::new();
    for (mut draw, book, quote) in accepted(300) {
        for (place, later) in QuoteDamage::ALL.into_iter().enumerate() {
            let Some(quote) = damage_quote(&mut draw, &quote, &book.curves, later) else {
                continue;
            };
            for &damage in &QuoteDamage::ALL[..place] {
                let spoiled = damage_quote(&mut draw, &quote, &book.curves, damage);
                if let Some(quote) = spoiled {
                    let (case, outcome) = run(&mut draw, &book, quote);
                    assert_eq!(outcome.answer, refused(damage), "{later:?} {quote:?}");
                    assert_eq!(outcome.after, case);
                    *pairs.entry((damage, later)).or_insert(0) += 1;
                }
            }
        }
    }
    assert_eq!(pairs.len(), 10 * 9 / 2, "{pairs:?}");
}

#[test]
fn a_spoiled_book_answers_before_a_spoiled_quote() {
    for (mut draw, book, quote) in accepted(200) {
        let ground = draw.pick(&[Ground::Check, Ground::Header, Ground::Curve, Ground::Node]);
        let damage = draw.pick(&QuoteDamage::ALL);
        let quote = damage_quote(&mut draw, &quote, &book.curves, damage).unwrap_or(quote);
        let (mut bytes, block) = damage_book(&mut draw, &book, ground).unwrap();
        let before = bytes.clone();
        let answer = bootstrap(&mut bytes, before.len(), book.valuation_day, &quote);
        assert_eq!(answer, Err(ground.in_block(block)).into());
        assert_eq!(bytes, before);
    }
}

#[test]
fn faults_of_quotes_are_what_the_call_answers_and_lie_in_what_was_spoiled() {
    for (mut draw, book, whole) in accepted(300) {
        assert_eq!(quote_fault(&whole, &book.curves), None);
        for damage in QuoteDamage::ALL {
            let Some(quote) = damage_quote(&mut draw, &whole, &book.curves, damage) else {
                continue;
            };
            let fault = quote_fault(&quote, &book.curves).unwrap();
            assert_eq!(fault.ground, damage.ground());
            let fields: &[&str] = match damage {
                QuoteDamage::Curve | QuoteDamage::FullCurve => &["curve"],
                QuoteDamage::Days => &["first_payment_day", "period", "payments"],
                QuoteDamage::Amounts => &["coupon", "nominal", "term"],
                QuoteDamage::FlowLimit => &["nominal"],
                QuoteDamage::Components => &["components"],
                QuoteDamage::EarlyEnd => &["first_payment_day"],
                QuoteDamage::Cash | QuoteDamage::CashTooLow | QuoteDamage::CashTooHigh => &["cash"],
            };
            assert!(fields.contains(&fault.field), "{damage:?}: {fault}");
            let rule = rule(fault.ground);
            assert!(rule.contains(fault.field), "{fault}: {rule}");
        }
    }
}
