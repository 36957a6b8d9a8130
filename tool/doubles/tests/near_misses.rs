//! Two trades that miss a kind of double in one point are not found as one.

mod pairs;

use pairs::{draw_changed, draw_second_leg, draw_second_leg_as_first, Pair, FIELDS};
use seddolki_books::curve::draw_curves;
use seddolki_books::Draw;
use seddolki_doubles::{doubles, Likeness};
use seddolki_format::block::Curve;
use seddolki_format::Record;
use seddolki_model::flows::second_leg;
use seddolki_model::rules::accept_record;
use std::collections::BTreeMap;

/// Pairs drawn for each test.
const PAIRS: u64 = 400;

/// How often a changed field made a miss, and how often it did not.
type Tried = BTreeMap<(&'static str, bool), usize>;

fn assert_tried(tried: &Tried, misses: bool, least: usize, fields: &[&'static str]) {
    for field in fields {
        let times = tried.get(&(field, misses)).copied().unwrap_or_default();
        assert!(times >= least, "{field}: {tried:?}");
    }
}

/// Whether the two are found as this kind; in either order alike.
fn are_found(likeness: Likeness, one: &Record, other: &Record) -> bool {
    let found = |trades: [Record; 2]| doubles(&trades).iter().any(|d| d.likeness == likeness);
    let there = found([*one, *other]);
    assert_eq!(there, found([*other, *one]));
    there
}

/// The pairs of this kind that the seeds give, each with its draw and curves.
fn each_pair(likeness: Likeness, mut visit: impl FnMut(&mut Draw, &[Curve], Pair)) {
    let draw_pair = match likeness {
        Likeness::SecondLeg => draw_second_leg,
        _ => draw_second_leg_as_first,
    };
    for seed in 0..PAIRS {
        let mut draw = Draw::new(seed);
        let curves = draw_curves(&mut draw);
        if let Some(pair) = draw_pair(&mut draw, &curves) {
            assert!(are_found(likeness, &pair.trade, &pair.double));
            visit(&mut draw, &curves, pair);
        }
    }
}

/// Changes each field of one of a pair in turn, where a book accepts that,
/// and sees that it misses the kind exactly where it should. `order` gives
/// the trade that is kept and the one that is changed; `misses` gets the
/// field's name, the kept trade and the changed one.
fn change_each_field(
    likeness: Likeness,
    order: fn(Pair) -> [Record; 2],
    misses: fn(&str, &Record, &Record) -> bool,
) -> Tried {
    let mut tried = Tried::new();
    each_pair(likeness, |draw, curves, pair| {
        let [kept, trade] = order(pair);
        for field in &FIELDS {
            let name = field.name;
            let Some(changed) = draw_changed(draw, &trade, field, curves) else {
                continue;
            };
            let missed = !are_found(likeness, &kept, &changed);
            assert_eq!(missed, misses(name, &kept, &changed), "{name}: {pair:?}");
            *tried.entry((name, missed)).or_default() += 1;
        }
    });
    tried
}

const TERMS: [&str; 6] = [
    "side",
    "cash_curve",
    "repo_cash",
    "price_or_rate",
    "term",
    "value_day_2",
];

fn double_changed(pair: Pair) -> [Record; 2] {
    [pair.trade, pair.double]
}

fn trade_changed(pair: Pair) -> [Record; 2] {
    [pair.double, pair.trade]
}

#[test]
fn a_settled_repo_with_other_terms_is_no_second_leg() {
    let misses = |field: &str, whole: &Record, settled: &Record| match field {
        "security_curve" => whole.has_security(),
        "kind" | "phase" => !settled.first_leg_settled(),
        _ => TERMS.contains(&field),
    };
    let tried = change_each_field(Likeness::SecondLeg, double_changed, misses);
    assert_tried(&tried, true, 50, &["cash_curve", "security_curve", "phase"]);
    assert_tried(&tried, true, 300, &["side", "repo_cash", "price_or_rate"]);
    assert_tried(&tried, true, 300, &["term", "value_day_2"]);
    assert_tried(
        &tried,
        false,
        100,
        &["nominal", "first_payment_day", "coupon"],
    );
    assert_tried(&tried, false, 20, &["security_curve"]);
}

#[test]
fn a_repo_with_other_terms_has_not_this_second_leg() {
    let misses = |field: &str, _: &Record, whole: &Record| match field {
        "security_curve" => true,
        "kind" | "phase" => whole.first_leg_settled(),
        _ => TERMS.contains(&field),
    };
    let tried = change_each_field(Likeness::SecondLeg, trade_changed, misses);
    assert_tried(&tried, true, 50, &["cash_curve", "security_curve", "phase"]);
    assert_tried(&tried, true, 300, &["side", "repo_cash", "price_or_rate"]);
    assert_tried(&tried, false, 100, &["nominal", "first_payment_day"]);
}

#[test]
fn a_repo_that_begins_with_other_cash_is_none() {
    let misses = |field: &str, _: &Record, repo: &Record| match field {
        "kind" | "phase" => repo.first_leg_settled(),
        _ => ["side", "repo_cash"].contains(&field),
    };
    let tried = change_each_field(Likeness::SecondLegAsFirst, double_changed, misses);
    assert_tried(&tried, true, 300, &["side", "repo_cash"]);
    assert_tried(&tried, false, 50, &["cash_curve"]);
    assert_tried(&tried, true, 5, &["phase"]);
    assert_tried(
        &tried,
        false,
        100,
        &["price_or_rate", "nominal", "security_curve"],
    );
}

#[test]
fn a_repo_that_pays_back_another_amount_is_none() {
    let misses = |field: &str, begins: &Record, repo: &Record| match field {
        "side" | "value_day_2" => true,
        _ => {
            let paid_back = second_leg(repo.repo_cash, repo.price_or_rate, repo.term);
            paid_back != begins.repo_cash.into()
        }
    };
    let tried = change_each_field(Likeness::SecondLegAsFirst, trade_changed, misses);
    assert_tried(&tried, true, 300, &["side", "repo_cash"]);
    assert_tried(&tried, true, 100, &["price_or_rate", "term", "value_day_2"]);
    assert_tried(
        &tried,
        false,
        20,
        &["price_or_rate", "term", "nominal", "cash_curve"],
    );
}

#[test]
fn an_outright_has_no_second_leg() {
    let outright = Record {
        kind: 1,
        side: 1,
        ..Record::default()
    };
    let repo = Record {
        kind: 2,
        phase: 1,
        side: 2,
        ..Record::default()
    };
    assert_eq!(Likeness::between(&outright, &repo), None);
}

#[test]
fn a_kurus_or_a_day_beside_the_second_leg_is_none() {
    let likeness = Likeness::SecondLegAsFirst;
    let mut tried = 0;
    each_pair(likeness, |_, curves, Pair { trade, double }| {
        let cash = |repo_cash| Record {
            repo_cash,
            ..double
        };
        let days = |value_day_1: u16| Record {
            value_day_1,
            value_day_2: value_day_1 + double.term,
            ..double
        };
        let misses = [
            cash(double.repo_cash - 1),
            cash(double.repo_cash + 1),
            days(double.value_day_1.saturating_sub(1)),
            days(double.value_day_1 + 1),
        ];
        for miss in misses {
            if miss != double && accept_record(&miss, curves).is_ok() {
                assert!(!are_found(likeness, &trade, &miss), "{trade:?} {miss:?}");
                tried += 1;
            }
        }
    });
    assert!(tried >= 1_000, "{tried}");
}
