//! Generated doubles of every kind are found where they stand, and nothing
//! else is.

mod pairs;

use pairs::{
    are_different, draw_different, draw_one_field, draw_opposite, draw_same, draw_second_leg,
    draw_second_leg_as_first, Pair, FIELDS,
};
use seddolki::{Book, Date, Record};
use seddolki_books::curve::draw_curves;
use seddolki_books::{most_trades, Draw};
use seddolki_doubles::{doubles, doubles_among, doubles_at, Double, Likeness};
use seddolki_format::assemble;
use seddolki_format::block::Curve;
use std::collections::BTreeSet;

/// Pairs drawn of each kind.
const PAIRS: u64 = 400;

/// Trades around a pair, at most.
const AROUND: usize = 12;

type Found = Vec<(usize, usize, Likeness)>;

fn positions(found: &[Double]) -> Found {
    found
        .iter()
        .map(|double| {
            let (earlier, later) = (double.earlier.position, double.later.position);
            (earlier, later, double.likeness)
        })
        .collect()
}

/// Two trades among others that are different from them and from each other.
struct Among {
    trades: Vec<Record>,
    earlier: usize,
    later: usize,
}

fn draw_among(draw: &mut Draw, curves: &[Curve], [first, second]: [Record; 2]) -> Among {
    let count = draw.place(AROUND + 1);
    let mut trades = draw_different(draw, curves, count);
    trades.retain(|trade| are_different(trade, &first) && are_different(trade, &second));
    let earlier = draw.place(trades.len() + 1);
    trades.insert(earlier, first);
    let later = earlier + 1 + draw.place(trades.len() - earlier);
    trades.insert(later, second);
    Among {
        trades,
        earlier,
        later,
    }
}

/// Every search that meets the two finds them, and them alone.
fn assert_found(draw: &mut Draw, among: &Among, likeness: Likeness) {
    let Among {
        trades,
        earlier,
        later,
    } = among;
    let expected = vec![(*earlier, *later, likeness)];
    let (before, from_later) = trades.split_at(*later);
    assert_eq!(positions(&doubles(trades)), expected, "{trades:?}");
    assert_eq!(
        positions(&doubles_among(before, &from_later[..1])),
        expected
    );
    let (book, new) = trades.split_at(draw.place(later + 1));
    assert_eq!(positions(&doubles_among(book, new)), expected);
    let (book, new) = trades.split_at(later + 1);
    assert_eq!(doubles_among(book, new), []);
    for position in 0..=trades.len() {
        let one_of_them = position == *earlier || position == *later;
        let at_position = if one_of_them { &expected[..] } else { &[] };
        assert_eq!(positions(&doubles_at(trades, position)), at_position);
    }
}

/// The engine takes every one of the trades, doubles too.
fn assert_engine_takes(curves: &[Curve], trades: &[Record]) {
    let mut book = Book::from_bytes(assemble(1, Date::FIRST, curves, &[]));
    for (position, trade) in trades.iter().enumerate() {
        let appended = book.append(Date::FIRST, trade);
        assert_eq!(appended, Ok(position), "{trade:?}");
    }
}

/// Sets each drawn pair among other trades, in both orders; gives the pairs.
fn find_pairs(
    draw_pair: impl Fn(&mut Draw, &[Curve]) -> Option<Pair>,
    likeness: impl Fn(&Pair) -> Likeness,
) -> Vec<Pair> {
    let mut pairs = vec![];
    for seed in 0..PAIRS {
        let mut draw = Draw::new(seed);
        let curves = draw_curves(&mut draw);
        let Some(pair) = draw_pair(&mut draw, &curves) else {
            continue;
        };
        for order in [[pair.trade, pair.double], [pair.double, pair.trade]] {
            let among = draw_among(&mut draw, &curves, order);
            assert_found(&mut draw, &among, likeness(&pair));
            assert_engine_takes(&curves, &among.trades);
        }
        pairs.push(pair);
    }
    pairs
}

/// The security of a repo has a payment up to value day 2.
fn pays_in_term(trade: &Record) -> bool {
    trade.is_repo() && trade.has_security() && trade.first_payment_day <= trade.value_day_2
}

#[test]
fn a_trade_that_stands_there_already_is_found() {
    let pairs = find_pairs(draw_same, |_| Likeness::Same);
    assert_eq!(pairs.len() as u64, PAIRS);
    let paying = pairs.iter().filter(|pair| pays_in_term(&pair.trade));
    assert!(paying.count() >= 100);
    let kinds: BTreeSet<_> = pairs
        .iter()
        .map(|p| (p.trade.kind, p.trade.phase))
        .collect();
    assert_eq!(kinds.len(), 6);
}

#[test]
fn a_second_leg_of_a_repo_is_found() {
    let pairs = find_pairs(draw_second_leg, |_| Likeness::SecondLeg);
    assert_eq!(pairs.len() as u64, PAIRS);
    let count = |holds: fn(&Pair) -> bool| pairs.iter().filter(|pair| holds(pair)).count();
    // whole repos without a security, pairs of two kinds, and pairs that
    // differ in nothing but the phase
    assert!(count(|pair| !pair.trade.has_security()) >= 30);
    assert!(count(|pair| pair.trade.kind != pair.double.kind) >= 30);
    assert!(count(|pair| pays_in_term(&pair.trade)) >= 50);
    assert!(count(|pair| pays_in_term(&pair.double)) >= 100);
    let phase_alone = |pair: &Pair| {
        let phase = pair.trade.phase;
        pair.trade
            == Record {
                phase,
                ..pair.double
            }
    };
    assert!(count(phase_alone) >= 100);
}

#[test]
fn a_repo_that_begins_with_a_second_leg_is_found() {
    let pairs = find_pairs(draw_second_leg_as_first, |_| Likeness::SecondLegAsFirst);
    assert!(pairs.len() >= 300, "{}", pairs.len());
    let count = |holds: fn(&Pair) -> bool| pairs.iter().filter(|pair| holds(pair)).count();
    assert!(count(|pair| pair.trade.first_leg_settled()) >= 100);
    assert!(count(|pair| !pair.trade.first_leg_settled()) >= 100);
    assert!(count(|pair| pair.trade.repo_cash < pair.double.repo_cash) >= 100);
    assert!(count(|pair| pays_in_term(&pair.trade)) >= 100);
    assert!(count(|pair| pays_in_term(&pair.double)) >= 20);
}

#[test]
fn an_opposite_side_is_found() {
    let pairs = find_pairs(draw_opposite, |_| Likeness::Opposite);
    assert_eq!(pairs.len() as u64, PAIRS);
}

/// The fields in which alone two accepted records can differ. The others
/// cannot change alone, or are another kind: the side, and the kind and phase
/// of a repo, which make it a second leg.
const ONE_FIELDS: [&str; 15] = [
    "security_curve",
    "cash_curve",
    "value_day_1",
    "value_day_2",
    "first_payment_day",
    "period",
    "payments",
    "term",
    "coupon",
    "nominal",
    "repo_cash",
    "price_or_rate",
    "accrued",
    "settlement_index",
    "issue_index",
];

fn name_of(field: &'static str, trade: &Record) -> &'static str {
    match (field, trade.is_repo()) {
        ("price_or_rate", true) => "repo_rate",
        ("price_or_rate", false) => "clean_price",
        _ => field,
    }
}

#[test]
fn a_trade_that_differs_in_one_field_is_found() {
    let mut names = BTreeSet::new();
    for field in FIELDS
        .iter()
        .filter(|field| ONE_FIELDS.contains(&field.name))
    {
        let name = |pair: &Pair| name_of(field.name, &pair.trade);
        let pairs = find_pairs(
            |draw, curves| draw_one_field(draw, curves, field),
            |pair| Likeness::OneField(name(pair)),
        );
        assert!(pairs.len() >= 200, "{}: {}", field.name, pairs.len());
        names.extend(pairs.iter().map(name));
    }
    assert_eq!(names.len(), ONE_FIELDS.len() + 1);
}

#[test]
fn other_fields_do_not_change_alone() {
    for field in FIELDS
        .iter()
        .filter(|field| !ONE_FIELDS.contains(&field.name))
    {
        for seed in 0..PAIRS / 10 {
            let mut draw = Draw::new(seed);
            let curves = draw_curves(&mut draw);
            let Some(pair) = draw_one_field(&mut draw, &curves, field) else {
                continue;
            };
            let likeness = match field.name {
                "side" => Likeness::Opposite,
                _ => Likeness::SecondLeg,
            };
            let between = Likeness::between(&pair.trade, &pair.double);
            assert_eq!(between, Some(likeness), "{}", field.name);
        }
    }
}

/// Different means: no two trades have their last settlement on one day or
/// the same amount, and no repo has another's second leg for its cash.
#[test]
fn nothing_is_found_among_different_trades() {
    let mut trades_seen = 0;
    for seed in 0..60 {
        let mut draw = Draw::new(seed);
        let curves = draw_curves(&mut draw);
        let count = draw.place(120);
        let trades = draw_different(&mut draw, &curves, count);
        assert_engine_takes(&curves, &trades);
        assert_eq!(doubles(&trades), []);
        trades_seen += trades.len();
    }
    assert!(trades_seen >= 2_000);
}

#[test]
fn nothing_is_found_in_a_full_book_of_different_trades() {
    let mut draw = Draw::new(3);
    let mut curves = draw_curves(&mut draw);
    curves.truncate(1);
    let trades = draw_different(&mut draw, &curves, most_trades(&curves));
    assert_eq!(doubles(&trades), []);
}
