//! What a repo's security pays inside its term is no leg of the repo: two
//! trades are alike by their own fields, wherever the payments fall.

mod pairs;

use pairs::{draw_opposite, draw_same, draw_second_leg, draw_second_leg_as_first};
use seddolki_books::curve::draw_curves;
use seddolki_books::Draw;
use seddolki_doubles::{doubles, Likeness};
use seddolki_format::record::{COUPONS, SPECIFIED};
use seddolki_format::Record;

/// What the repo below pays back on day 7.
const SECOND_LEG: u64 = 100_215;

/// A specified repo of 1,000.00 at 13.2% from day 0 to day 7. Its bond pays
/// the amount of its second leg each 91 days from day 90.
fn repo() -> Record {
    Record {
        kind: SPECIFIED,
        side: 1,
        phase: 1,
        security_curve: 1,
        cash_curve: 2,
        security: COUPONS,
        value_day_2: 7,
        first_payment_day: 90,
        period: 91,
        payments: 8,
        term: 7,
        coupon: 100_000,
        nominal: 10 * SECOND_LEG,
        repo_cash: 100_000,
        price_or_rate: 132_000,
        ..Record::default()
    }
}

/// The repo on other days.
fn between(value_day_1: u16, value_day_2: u16) -> Record {
    Record {
        value_day_1,
        value_day_2,
        term: value_day_2 - value_day_1,
        ..repo()
    }
}

fn settled(repo: Record) -> Record {
    let phase = repo.phase + 1;
    Record {
        phase,
        value_day_1: 0,
        ..repo
    }
}

/// How two trades are alike; they are listed accordingly, in either order.
fn likeness(one: Record, other: Record) -> Option<Likeness> {
    let alike = Likeness::between(&one, &other);
    for trades in [[one, other], [other, one]] {
        let found = doubles(&trades);
        assert_eq!(found.first().map(|double| double.likeness), alike);
        assert_eq!(found.len(), alike.iter().count());
    }
    alike
}

#[test]
fn a_coupon_is_not_taken_for_a_leg() {
    let whole = Record {
        first_payment_day: 3,
        ..repo()
    };
    for side in [1, 2] {
        // each has a coupon of the second leg's amount: on the day of that leg, and on others
        for first_payment_day in [5, 7, 8] {
            let other = |value_day_1, value_day_2| Record {
                side,
                first_payment_day,
                repo_cash: 500_000,
                ..between(value_day_1, value_day_2)
            };
            for trade in [other(2, 9), other(2, 7), other(4, 12), settled(other(2, 9))] {
                assert_eq!(likeness(whole, trade), None, "{trade:?}");
                assert_eq!(likeness(settled(whole), trade), None, "{trade:?}");
            }
        }
    }
}

#[test]
fn a_coupon_is_not_taken_for_a_first_leg() {
    for side in [1, 2] {
        // begins on the day of the second leg, with other cash and a coupon of its amount
        for first_payment_day in [8, 11, 14] {
            let begins = Record {
                side,
                first_payment_day,
                repo_cash: 500_000,
                ..between(7, 14)
            };
            assert_eq!(likeness(repo(), begins), None);
            assert_eq!(likeness(settled(repo()), begins), None);
        }
    }
}

/// A repo beside others, with what is alike. Their bond pays on a day, where
/// that is after their value day 1, and every 91 days on.
fn pairs(first_payment_day: u16) -> Vec<(Record, Record, Option<Likeness>)> {
    let whole = Record {
        first_payment_day,
        ..repo()
    };
    let rolled = Record {
        first_payment_day: first_payment_day.max(8),
        ..between(7, 14)
    };
    let back = Record {
        side: 2,
        repo_cash: SECOND_LEG,
        ..rolled
    };
    let other_side = Record { side: 2, ..whole };
    let more = Record {
        coupon: 110_000,
        ..whole
    };
    vec![
        (whole, whole, Some(Likeness::Same)),
        (whole, settled(whole), Some(Likeness::SecondLeg)),
        (whole, back, Some(Likeness::SecondLegAsFirst)),
        (settled(whole), back, Some(Likeness::SecondLegAsFirst)),
        (whole, other_side, Some(Likeness::Opposite)),
        (whole, more, Some(Likeness::OneField("coupon"))),
        (whole, rolled, None),
        (settled(whole), rolled, None),
        (whole, Record { side: 1, ..back }, None),
    ]
}

/// Inside the first term, on its last day, inside the next one, behind both.
#[test]
fn repos_are_as_alike_as_without_a_payment_in_their_term() {
    for first_payment_day in [1, 7, 8, 14, 90] {
        for (one, other, due) in pairs(first_payment_day) {
            assert_eq!(likeness(one, other), due, "{one:?} {other:?}");
        }
    }
}

#[test]
fn a_second_leg_may_be_keyed_without_the_coupons_paid_before_it() {
    let whole = Record {
        first_payment_day: 3,
        ..repo()
    };
    let left = Record {
        first_payment_day: 3 + 91,
        payments: 7,
        ..settled(whole)
    };
    assert_eq!(likeness(whole, left), Some(Likeness::SecondLeg));
}

#[test]
fn a_payment_moved_out_of_the_term_is_one_field() {
    let inside = Record {
        first_payment_day: 7,
        ..repo()
    };
    let behind = Record {
        first_payment_day: 8,
        ..inside
    };
    let field = Likeness::OneField("first_payment_day");
    assert_eq!(likeness(inside, behind), Some(field));
}

/// The trade with its first payment on the first day that rule 9 allows.
fn paid_early(trade: Record) -> Record {
    if !trade.has_security() {
        return trade;
    }
    Record {
        first_payment_day: trade.value_day_1 + 1,
        ..trade
    }
}

#[test]
fn drawn_pairs_stay_alike_where_they_pay_in_their_terms() {
    for draw_pair in [
        draw_same,
        draw_second_leg,
        draw_second_leg_as_first,
        draw_opposite,
    ] {
        let mut changed = 0;
        for seed in 0..100 {
            let mut draw = Draw::new(seed);
            let curves = draw_curves(&mut draw);
            let Some(pair) = draw_pair(&mut draw, &curves) else {
                continue;
            };
            let [trade, double] = [pair.trade, pair.double].map(paid_early);
            let before = Likeness::between(&pair.trade, &pair.double);
            assert!(before.is_some());
            assert_eq!(likeness(trade, double), before, "{pair:?}");
            changed += usize::from(trade != pair.trade);
        }
        assert!(changed >= 25, "{changed}");
    }
}
