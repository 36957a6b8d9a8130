//! Bootstraps alone: every ending of one, curves that grow node by node, and
//! bonds that pay halves.

use seddolki_books::{
    added_node, assemble, draw_book, draw_case_of, draw_half_quote, draw_quote, entry, is_half,
    Call, Case, Draw, Ending, Outcome, Tally,
};
use seddolki_compare::{assert_alike, calls, is_whole, margin_case, whole_case, Seeds};
use seddolki_model::{accept, bond_value, payments, Curve, Node, Quote};

/// Bounds the time of a margin.
const WORK: usize = 300;

/// By the model's valuation the rate that was written fits, and the one below
/// it does not.
fn assert_smallest(case: &Case, outcome: &Outcome) {
    let Call::Bootstrap { quote } = &case.call else {
        panic!("{} is no bootstrap", case.call.name());
    };
    let before = accept(&case.lent, case.used).expect("a done call had a book");
    let curve = &before.curves[quote.curve - 1];
    let rate = u64::from(added_node(outcome, quote).rate);
    let value = |rate| bond_value(curve, quote, rate);
    assert!(value(rate) <= quote.cash, "{quote:?}: {rate}");
    assert!(
        rate == 0 || value(rate - 1) > quote.cash,
        "{quote:?}: {rate}"
    );
}

#[test]
fn bootstraps_are_the_same_and_reach_every_ending() {
    let seeds = Seeds::of_this_run();
    let mut reached = Tally::default();
    for number in 0..calls() / 4 {
        let case = draw_case_of(&mut seeds.draw(number), WORK, entry("bootstrap"));
        let outcome = assert_alike(&case, number);
        if outcome.answer.number == 0 {
            assert_smallest(&case, &outcome);
        }
        let ending = Ending::of(&case, &outcome);
        assert_eq!(outcome.answer.number, ending.number(), "case {number}");
        reached.add(ending);
    }
    reached.assert_all(Ending::all(entry("bootstrap")), is_whole().into());
}

/// Lengthens curves of one book until a quote is refused; gives the number of
/// nodes added. The book is then margined alike.
fn grow(draw: &mut Draw, number: u64) -> usize {
    let start = draw_book(draw, WORK);
    let mut bytes = assemble(&start);
    let mut added = 0;
    loop {
        let book = accept(&bytes, bytes.len()).expect("a lengthened curve is accepted");
        assert_eq!(book.valuation_day, start.valuation_day);
        let quote = draw_quote(draw, &book.curves);
        let case = whole_case(bytes, Call::Bootstrap { quote });
        let outcome = assert_alike(&case, number);
        bytes = outcome.after.lent.clone();
        if outcome.answer.number != 0 {
            break;
        }
        assert_smallest(&case, &outcome);
        added += 1;
    }
    let outcome = assert_alike(&margin_case(draw, bytes), number);
    assert_eq!(outcome.answer.number, 0);
    added
}

#[test]
fn curves_grow_alike_until_they_have_no_room() {
    let seeds = Seeds::of_this_run();
    let books = calls() / 200;
    let added: usize = (0..books)
        .map(|number| grow(&mut seeds.draw(number), number))
        .sum();
    println!("{books} books, {added} nodes added");
    assert!(added as u64 >= 5 * books);
}

/// A payment of whole kuruş and a half: whether at the rate that was found or at
/// the one below it, and whether it is the bond's last.
type HalfPaid = (bool, bool);

fn halves(curve: &Curve, quote: &Quote, found: Node) -> Vec<HalfPaid> {
    let below = found.rate.checked_sub(1);
    let below = below.map(|rate| Node { rate, ..found });
    let paid = payments(&quote.purchase());
    let mut halves = vec![];
    for node in [Some(found), below].into_iter().flatten() {
        let nodes = [curve.nodes(), &[node]].concat();
        let half = paid.iter().filter(|paid| is_half(&nodes, paid.0, paid.1));
        let case = |day| (node == found, day == u64::from(node.day));
        halves.extend(half.map(|paid| case(paid.0)));
    }
    halves
}

#[test]
fn bonds_that_pay_halves_lengthen_curves_alike() {
    let seeds = Seeds::of_this_run();
    let mut reached = Tally::default();
    for number in 0..calls() / 40 {
        let mut draw = seeds.draw(number);
        let book = draw_book(&mut draw, WORK);
        let Some(quote) = draw_half_quote(&mut draw, &book.curves) else {
            continue;
        };
        let case = whole_case(assemble(&book), Call::Bootstrap { quote });
        let outcome = assert_alike(&case, number);
        if outcome.answer.number == 0 {
            assert_smallest(&case, &outcome);
            let found = added_node(&outcome, &quote);
            let halves = halves(&book.curves[quote.curve - 1], &quote, found);
            halves.into_iter().for_each(|half| reached.add(half));
        }
    }
    let all = [(false, false), (false, true), (true, false), (true, true)];
    reached.assert_all(all, 10 * u64::from(is_whole()));
}
