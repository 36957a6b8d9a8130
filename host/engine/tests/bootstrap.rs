//! A curve lengthened by a bond's price.

use seddolki::{bond_of, present_value, Book, Date, Ground, Quote, Record};
use seddolki_books::buyer;
use seddolki_format::{Curve, Layout, Node, BLOCK};
use seddolki_model::{payments, rate_on, MAX_AMOUNT, MAX_COMPONENT, NODES};

/// The day that the buyer's book is for.
const DAY: Date = Date::FIRST;

/// For so many years it pays what the curve of the buyer's book yields.
fn bond(years: u16) -> Record {
    Record {
        first_payment_day: 365,
        period: 365,
        payments: years,
        coupon: 250_000,
        nominal: 100_000_000,
        ..Record::default()
    }
}

/// The bond at its nominal.
fn at_par(bond: &Record) -> Quote {
    Quote {
        curve: 1,
        bond: bond_of(bond),
        cash: bond.nominal,
        components: [250_000, -1, 2],
    }
}

fn curve_of(book: &Book) -> Curve {
    Curve::decode(&book.as_bytes()[BLOCK..])
}

/// The sum of the present values of a bond's payments on a curve.
fn value(nodes: &[Node], quote: &Quote) -> u64 {
    let present = |(day, amount): (u64, u128)| {
        let rate = rate_on(nodes, day);
        present_value(amount as u64, rate, day).unwrap().value
    };
    payments(&quote.purchase()).into_iter().map(present).sum()
}

#[test]
fn a_bond_at_its_nominal_goes_on_with_a_flat_curve() {
    let mut book = Book::from_bytes(buyer());
    let before = curve_of(&book);
    book.bootstrap(DAY, &at_par(&bond(3))).unwrap();
    let node = Node {
        day: 1_095,
        rate: 250_000,
        components: [250_000, -1, 2],
    };
    assert_eq!(curve_of(&book).nodes(), [before.nodes(), &[node]].concat());
    let (old, new) = (buyer(), book.as_bytes());
    assert_eq!(old.len(), new.len());
    assert_eq!(old[..BLOCK], new[..BLOCK]);
    assert_eq!(old[2 * BLOCK..], new[2 * BLOCK..]);
}

#[test]
fn a_curve_is_lengthened_until_it_is_full() {
    let mut book = Book::from_bytes(buyer());
    let most = u16::from(*NODES.end());
    for years in 3..=most {
        let quote = at_par(&bond(years));
        book.bootstrap(DAY, &quote).unwrap();
        book.margin(DAY).unwrap();
        let mut curve = curve_of(&book);
        assert_eq!(u16::from(curve.node_count), years);
        assert!(value(curve.nodes(), &quote) <= quote.cash);
        curve.places[usize::from(years) - 1].rate -= 1;
        assert!(value(curve.nodes(), &quote) > quote.cash);
    }
    let full = book.as_bytes().to_vec();
    let refusal = book.bootstrap(DAY, &at_par(&bond(1 + most))).unwrap_err();
    assert_eq!(refusal, Ground::CurveEnd.alone());
    assert_eq!(book.as_bytes(), full);
}

/// Wrong bonds at their nominal, each with the ground that refuses it.
fn wrong_bonds() -> Vec<(Quote, Ground)> {
    let with = |change: fn(&mut Record), ground| {
        let mut bond = bond(3);
        change(&mut bond);
        (at_par(&bond), ground)
    };
    vec![
        with(|bond| bond.first_payment_day = 0, Ground::Days),
        with(|bond| bond.period = 0, Ground::Days),
        with(|bond| bond.period = 367, Ground::Days),
        with(|bond| bond.payments = 0, Ground::Days),
        with(|bond| bond.payments = 121, Ground::Days),
        with(|bond| bond.payments = 31, Ground::Days),
        with(|bond| bond.term = 1, Ground::Amounts),
        with(|bond| bond.coupon = 1_000_001, Ground::Amounts),
        with(|bond| bond.nominal = MAX_AMOUNT + 1, Ground::Amounts),
        with(|bond| bond.nominal = MAX_AMOUNT, Ground::FlowLimit),
        with(|bond| bond.payments = 2, Ground::CurveEnd),
        with(|bond| bond.period = 182, Ground::CurveEnd),
    ]
}

/// The same of what is quoted with a right bond.
fn wrong_rest() -> Vec<(Quote, Ground)> {
    let with = |change: fn(&mut Quote), ground| {
        let mut quote = at_par(&bond(3));
        change(&mut quote);
        (quote, ground)
    };
    vec![
        with(|quote| quote.curve = 0, Ground::Form),
        with(|quote| quote.curve = 2, Ground::Form),
        with(|quote| quote.curve = usize::MAX, Ground::Form),
        with(
            |quote| quote.components[0] = MAX_COMPONENT + 1,
            Ground::Node,
        ),
        with(
            |quote| quote.components[1] = -MAX_COMPONENT - 1,
            Ground::Node,
        ),
        with(|quote| quote.components[2] = i32::MIN, Ground::Node),
        with(|quote| quote.cash = 0, Ground::Amounts),
        with(|quote| quote.cash = MAX_AMOUNT + 1, Ground::Amounts),
        with(|quote| quote.cash = 36_000_000, Ground::RateRange),
        with(|quote| quote.cash = 200_000_000, Ground::RateRange),
    ]
}

fn wrong_quotes() -> Vec<(Quote, Ground)> {
    [wrong_bonds(), wrong_rest()].concat()
}

#[test]
fn a_refused_bootstrap_names_no_block_and_leaves_the_book() {
    let mut book = Book::from_bytes(buyer());
    for (quote, ground) in wrong_quotes() {
        let refusal = book.bootstrap(DAY, &quote).unwrap_err();
        assert_eq!(refusal, ground.alone(), "{quote:?}");
        assert!(!refusal.to_string().contains("block"), "{refusal}");
        assert_eq!(book.as_bytes(), buyer());
    }
}

#[test]
fn the_book_is_looked_at_first() {
    let mut bytes = buyer();
    bytes[2 * BLOCK - 1] ^= 1;
    let mut book = Book::from_bytes(bytes.clone());
    let wrong = wrong_quotes().into_iter().map(|(quote, _)| quote);
    for quote in wrong.chain([at_par(&bond(3))]) {
        let refusal = book.bootstrap(DAY, &quote).unwrap_err();
        assert_eq!(refusal, Ground::Check.in_block(1));
        assert_eq!(book.as_bytes(), bytes);
    }
}
