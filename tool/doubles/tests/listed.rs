//! Which doubles are listed, and what is said of them.

use seddolki_doubles::{doubles, Likeness};
use seddolki_format::Record;
use std::time::{Duration, Instant};

type Found = Vec<(usize, usize, Likeness)>;

fn found_in(trades: &[Record]) -> Found {
    doubles(trades)
        .iter()
        .map(|double| {
            (
                double.earlier.position,
                double.later.position,
                double.likeness,
            )
        })
        .collect()
}

/// A repo that pays back 1,002.15 on day 7, one that takes it as its cash for
/// a day, and one that takes what that one pays back.
fn chain() -> [Record; 3] {
    let repo = |side, first, second, cash| Record {
        kind: 2,
        side,
        phase: 1,
        cash_curve: 1,
        value_day_1: first,
        value_day_2: second,
        term: second - first,
        repo_cash: cash,
        price_or_rate: 132_000,
        ..Record::default()
    };
    [
        repo(1, 0, 7, 100_000),
        repo(2, 7, 8, 100_215),
        repo(1, 8, 9, 100_246),
    ]
}

#[test]
fn both_directions_of_a_second_leg_are_listed() {
    let [first, second, third] = chain();
    let expected: Found = vec![
        (0, 2, Likeness::SecondLegAsFirst),
        (1, 2, Likeness::SecondLegAsFirst),
    ];
    assert_eq!(found_in(&[first, third, second]), expected);
}

#[test]
fn of_a_repo_it_is_said_which_one_has_the_second_leg() {
    let [repo, returned, _] = chain();
    let settled = Record {
        phase: 3,
        security: 1,
        security_curve: 1,
        nominal: 110_000,
        first_payment_day: 90,
        ..repo
    };
    let words = |trades: [Record; 2]| doubles(&trades)[0].to_string();
    let terms = "same side, cash curve, cash 1,000.00, rate, term and value day 2";
    let is_leg = |leg, whole| format!("trade {leg} is the second leg of trade {whole}: {terms}");
    assert_eq!(words([repo, settled]), is_leg(1, 0));
    assert_eq!(words([settled, repo]), is_leg(0, 1));
    let cash = "other side, cash 1,002.15 on day 7";
    let begins =
        |leg, whole| format!("trade {leg} begins with the second leg of trade {whole}: {cash}");
    assert_eq!(words([repo, returned]), begins(1, 0));
    assert_eq!(words([returned, repo]), begins(0, 1));
}

#[test]
fn amounts_in_words_have_separated_thousands() {
    let [repo, ..] = chain();
    let amounts = [
        (1, "0.01"),
        (99_999, "999.99"),
        (100_000_705, "1,000,007.05"),
        (1_000_000_000_000, "10,000,000,000.00"),
    ];
    for (repo_cash, written) in amounts {
        let repo = Record { repo_cash, ..repo };
        let words = doubles(&[repo, Record { phase: 3, ..repo }])[0].to_string();
        assert!(words.contains(&format!(" cash {written}, ")), "{words}");
    }
}

#[test]
fn what_is_refused_and_what_is_told() {
    let refused = [
        Likeness::Same,
        Likeness::SecondLeg,
        Likeness::SecondLegAsFirst,
    ];
    let told = [Likeness::Opposite, Likeness::OneField("nominal")];
    assert!(refused.iter().all(|likeness| likeness.refused()));
    assert!(!told.iter().any(|likeness| likeness.refused()));
}

/// As many trades as a book can have, made from one; what is found in them.
fn found_in_full_book(trade_at: impl Fn(u64) -> Record) -> Found {
    let trades: Vec<Record> = (0..1_134).map(trade_at).collect();
    let start = Instant::now();
    let found = found_in(&trades);
    let taken = start.elapsed();
    println!("{} doubles in {taken:?}", found.len());
    // some hundredths of a second; a search by all pairs of pairs would not end
    assert!(taken < Duration::from_secs(60));
    found
}

#[test]
fn each_trade_is_listed_once_for_a_likeness() {
    let [repo, ..] = chain();
    let later = |from: usize| from..1_134;

    let equal: Found = later(1).map(|later| (0, later, Likeness::Same)).collect();
    assert_eq!(found_in_full_book(|_| repo), equal);

    let nominal = Likeness::OneField("nominal");
    let one_field: Found = later(1).map(|later| (0, later, nominal)).collect();
    let nominals = |nominal| Record { nominal, ..repo };
    assert_eq!(found_in_full_book(nominals), one_field);

    let sides = |place| Record {
        side: 1 + (place % 2) as u8,
        ..repo
    };
    assert_eq!(found_in_full_book(sides).len(), 1 + 2 * 1_132);

    let legs = |place| chain()[place as usize % 2];
    assert_eq!(found_in_full_book(legs).len(), 1 + 2 * 1_132);
}
