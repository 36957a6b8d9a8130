//! Payments inside and behind a repo's term, worked by hand.

use seddolki_model::{
    accept_record, cash_flows, payment_counts, CashFlow, Curve, Ground, Record, COUPONS,
    FIRST_SIDE, INDEXED_COUPONS, POOL, SECOND_SIDE, SINGLE_PAYMENT, SPECIFIED,
};

const CASH_CURVE: u8 = 1;
const SECURITY_CURVE: u8 = 2;

/// Kinds and phases with both legs ahead and a security.
const AHEAD: [(u8, u8); 2] = [(POOL, 2), (SPECIFIED, 1)];

/// Kinds and phases whose first leg has settled.
const SETTLED: [(u8, u8); 2] = [(POOL, 3), (SPECIFIED, 2)];

const SIDES: [u8; 2] = [FIRST_SIDE, SECOND_SIDE];

/// 1,000,000.00 at 10% from day 10 to day 100, 90 days. Interest is
/// 100,000,000 × 100,000 × 90 / (365 × 10^6) = 2,465,753.4, so 2,465,753;
/// 15% of that is 369,862.95, so 369,863 is withheld, and the second leg is
/// 100,000,000 + 2,465,753 - 369,863 = 102,095,890.
///
/// The bond pays 120,000,000 × 25,000 / 10^6 = 3,000,000 on days 40, 70, 100
/// and 130, with its nominal of 120,000,000 on the last.
fn ahead((kind, phase): (u8, u8), side: u8) -> Record {
    Record {
        kind,
        side,
        phase,
        security_curve: SECURITY_CURVE,
        cash_curve: CASH_CURVE,
        security: COUPONS,
        value_day_1: 10,
        value_day_2: 100,
        first_payment_day: 40,
        period: 30,
        payments: 4,
        term: 90,
        coupon: 25_000,
        nominal: 120_000_000,
        repo_cash: 100_000_000,
        price_or_rate: 100_000,
        ..Record::default()
    }
}

/// The same repo ten days later: its second leg is on day 90, and the bond
/// pays on days 30, 60, 90 and 120.
fn settled(form: (u8, u8), side: u8) -> Record {
    Record {
        value_day_1: 0,
        value_day_2: 90,
        first_payment_day: 30,
        ..ahead(form, side)
    }
}

fn flow(curve: u8, day: u64, signed: i64) -> CashFlow {
    CashFlow {
        curve,
        day,
        amount: signed.unsigned_abs().into(),
        sign: signed.signum(),
    }
}

/// The days and signed amounts of what a trade has on the security curve.
fn paid(record: &Record) -> Vec<(u64, i64)> {
    let flows = cash_flows(record).into_iter();
    let paid = flows.filter(|flow| flow.curve == SECURITY_CURVE);
    paid.map(|flow| (flow.day, flow.sign * flow.amount as i64))
        .collect()
}

/// Two curves of one currency; the rules that are tested here look at no
/// more of them.
fn curves() -> [Curve; 2] {
    [1, 2].map(|id| Curve {
        id,
        currency: 1,
        ..Curve::default()
    })
}

fn ground_of(record: &Record) -> Option<Ground> {
    accept_record(record, &curves()).err()
}

/// Day 100 is value day 2 and inside the term, day 130 is behind it.
#[test]
fn payments_inside_the_term_go_out_for_the_repo_member_and_in_for_the_other_side() {
    for form in AHEAD {
        for (side, sign) in [(FIRST_SIDE, 1), (SECOND_SIDE, -1)] {
            let record = ahead(form, side);
            assert_eq!(ground_of(&record), None);
            assert_eq!(
                cash_flows(&record),
                [
                    flow(CASH_CURVE, 10, sign * 100_000_000),
                    flow(CASH_CURVE, 100, sign * -102_095_890),
                    flow(SECURITY_CURVE, 40, sign * -3_000_000),
                    flow(SECURITY_CURVE, 70, sign * -3_000_000),
                    flow(SECURITY_CURVE, 100, sign * -3_000_000),
                ]
            );
        }
    }
}

/// Day 90 is value day 2 and not behind it, day 120 is.
#[test]
fn only_payments_behind_the_term_count_once_the_first_leg_has_settled() {
    for (form, side, sign) in [
        ((POOL, 3), FIRST_SIDE, 1),
        ((SPECIFIED, 2), FIRST_SIDE, 1),
        ((SPECIFIED, 2), SECOND_SIDE, -1),
    ] {
        let record = settled(form, side);
        assert_eq!(ground_of(&record), None);
        assert_eq!(
            cash_flows(&record),
            [
                flow(CASH_CURVE, 90, sign * -102_095_890),
                flow(SECURITY_CURVE, 120, sign * 123_000_000),
            ]
        );
    }
    let none = settled((POOL, 3), SECOND_SIDE);
    assert_eq!(ground_of(&none), None);
    assert_eq!(cash_flows(&none), []);
}

/// The nominal comes with the last payment, on day 100 or on day 70.
#[test]
fn a_bond_that_ends_inside_the_term_pays_its_nominal_there() {
    for form in AHEAD {
        for (side, sign) in [(FIRST_SIDE, -1), (SECOND_SIDE, 1)] {
            let on_the_last_day = Record {
                payments: 3,
                ..ahead(form, side)
            };
            let before_it = Record {
                payments: 2,
                ..ahead(form, side)
            };
            assert_eq!(ground_of(&on_the_last_day), None);
            assert_eq!(ground_of(&before_it), None);
            assert_eq!(
                paid(&on_the_last_day),
                [
                    (40, sign * 3_000_000),
                    (70, sign * 3_000_000),
                    (100, sign * 123_000_000)
                ]
            );
            assert_eq!(
                paid(&before_it),
                [(40, sign * 3_000_000), (70, sign * 123_000_000)]
            );
        }
    }
}

/// Days 30, 60 and 90 are over when the security returns on day 90.
#[test]
fn a_settled_repo_whose_bond_ends_inside_the_term_has_its_second_leg_alone() {
    for form in SETTLED {
        for payments in [1, 2, 3] {
            let record = Record {
                payments,
                ..settled(form, FIRST_SIDE)
            };
            assert_eq!(ground_of(&record), None);
            let second_leg = flow(CASH_CURVE, 90, -102_095_890);
            assert_eq!(cash_flows(&record), [second_leg]);
        }
    }
}

#[test]
fn a_single_payment_counts_by_its_day() {
    let single = |whole: Record, day| Record {
        security: SINGLE_PAYMENT,
        first_payment_day: day,
        period: 0,
        payments: 0,
        coupon: 0,
        ..whole
    };
    for form in AHEAD {
        for day in [11, 50, 100] {
            let record = single(ahead(form, FIRST_SIDE), day);
            assert_eq!(paid(&record), [(day.into(), -120_000_000)]);
            let record = single(ahead(form, SECOND_SIDE), day);
            assert_eq!(paid(&record), [(day.into(), 120_000_000)]);
        }
        assert_eq!(paid(&single(ahead(form, FIRST_SIDE), 101)), []);
    }
    for form in SETTLED {
        for day in [1, 50, 90] {
            assert_eq!(paid(&single(settled(form, FIRST_SIDE), day)), []);
        }
        let behind = single(settled(form, FIRST_SIDE), 91);
        assert_eq!(paid(&behind), [(91, 120_000_000)]);
    }
}

/// A payment of 3,000,000 × 300 / 200 is 4,500,000, the last of
/// 123,000,000 × 300 / 200 is 184,500,000.
#[test]
fn indexed_coupons_count_by_their_days() {
    let indexed = |whole: Record| Record {
        security: INDEXED_COUPONS,
        settlement_index: 300,
        issue_index: 200,
        ..whole
    };
    for form in AHEAD {
        let record = indexed(ahead(form, FIRST_SIDE));
        assert_eq!(ground_of(&record), None);
        let coupons = [40, 70, 100].map(|day| (day, -4_500_000));
        assert_eq!(paid(&record), coupons);
    }
    for form in SETTLED {
        let record = indexed(settled(form, FIRST_SIDE));
        assert_eq!(paid(&record), [(120, 184_500_000)]);
    }
}

/// The bond's days are moved to the day named, where its first payment falls.
fn first_on(day: u16, whole: Record) -> Option<Ground> {
    ground_of(&Record {
        first_payment_day: day,
        ..whole
    })
}

#[test]
fn the_first_payment_comes_after_value_day_1() {
    for form in AHEAD {
        for side in SIDES {
            for early in [0, 9, 10] {
                assert_eq!(first_on(early, ahead(form, side)), Some(Ground::Days));
            }
            for day in [11, 12, 99, 100, 101, 5_000] {
                assert_eq!(first_on(day, ahead(form, side)), None);
            }
        }
    }
}

#[test]
fn the_first_payment_of_a_settled_repo_comes_after_day_0() {
    for form in SETTLED {
        for side in SIDES {
            assert_eq!(first_on(0, settled(form, side)), Some(Ground::Days));
            for day in [1, 2, 89, 90, 91, 5_000] {
                assert_eq!(first_on(day, settled(form, side)), None);
            }
        }
    }
}

/// A first payment on day 30 comes after day 0 whatever the unused day is.
#[test]
fn an_unused_value_day_1_is_ground_10_s_matter() {
    for form in SETTLED {
        for value_day_1 in [1, 30, 50, u16::MAX] {
            let record = Record {
                value_day_1,
                ..settled(form, FIRST_SIDE)
            };
            assert_eq!(ground_of(&record), Some(Ground::Amounts));
            assert_eq!(first_on(0, record), Some(Ground::Days));
        }
    }
}

/// 90 days to the last day of all, the bond's four payments a day apart.
#[test]
fn value_day_2_needs_no_day_behind_it() {
    for form in AHEAD {
        let last = Record {
            value_day_1: 10_860,
            value_day_2: 10_950,
            first_payment_day: 10_947,
            period: 1,
            ..ahead(form, FIRST_SIDE)
        };
        assert_eq!(ground_of(&last), None);
        assert_eq!(paid(&last)[3], (10_950, -123_000_000));
        assert_eq!(first_on(10_948, last), Some(Ground::Days));
        let later = Record {
            value_day_1: 10_861,
            value_day_2: 10_951,
            ..last
        };
        assert_eq!(ground_of(&later), Some(Ground::Days));
    }
}

/// One coupon of 10^12 / 10^6 with the nominal of 10^12: 1,000,001,000,000.
fn above_limit(day: u16, whole: Record) -> Option<Ground> {
    ground_of(&Record {
        first_payment_day: day,
        period: 1,
        payments: 1,
        coupon: 1,
        nominal: 1_000_000_000_000,
        ..whole
    })
}

#[test]
fn only_a_payment_that_counts_can_exceed_the_limit_of_a_flow() {
    for side in SIDES {
        for form in AHEAD {
            let limit = |day| above_limit(day, ahead(form, side));
            assert_eq!([11, 99, 100].map(limit), [Some(Ground::FlowLimit); 3]);
            assert_eq!([101, 5_000].map(limit), [None; 2]);
        }
        let limit = |day| above_limit(day, settled((SPECIFIED, 2), side));
        assert_eq!([1, 89, 90].map(limit), [None; 3]);
        assert_eq!([91, 5_000].map(limit), [Some(Ground::FlowLimit); 2]);
    }
    let limit = |day| above_limit(day, settled((POOL, 3), FIRST_SIDE));
    assert_eq!([90, 91].map(limit), [None, Some(Ground::FlowLimit)]);
    let limit = |day| above_limit(day, settled((POOL, 3), SECOND_SIDE));
    assert_eq!([90, 91].map(limit), [None; 2]);
}

/// The coupon of 1,000,000 on day 100 counts, the last payment of
/// 1,000,001,000,000 the day after does not.
#[test]
fn a_last_payment_behind_the_term_may_be_above_the_limit() {
    for form in AHEAD {
        let record = Record {
            first_payment_day: 100,
            period: 1,
            payments: 2,
            coupon: 1,
            nominal: 1_000_000_000_000,
            ..ahead(form, FIRST_SIDE)
        };
        assert_eq!(ground_of(&record), None);
        assert_eq!(paid(&record), [(100, -1_000_000)]);
        assert_eq!(first_on(99, record), Some(Ground::FlowLimit));
    }
}

#[test]
fn a_security_that_pays_behind_the_term_alone_gives_the_flows_of_document_01() {
    let days = [101, 131, 161, 191];
    let coupons = days.map(|day| (day, if day == 191 { 123_000_000 } else { 3_000_000 }));
    for form in AHEAD {
        for side in SIDES {
            let record = Record {
                first_payment_day: 101,
                ..ahead(form, side)
            };
            assert_eq!(cash_flows(&record).len(), 2);
            assert_eq!(paid(&record), []);
        }
    }
    for form in SETTLED {
        let record = Record {
            first_payment_day: 101,
            ..settled(form, FIRST_SIDE)
        };
        assert_eq!(cash_flows(&record).len(), 5);
        assert_eq!(paid(&record), coupons);
    }
}

#[test]
fn days_are_told_inside_the_term_and_counted() {
    let told = |record: Record, day| (record.in_term(day), payment_counts(&record, day));
    for form in AHEAD {
        let record = ahead(form, SECOND_SIDE);
        assert_eq!(told(record, 10), (false, false));
        assert_eq!(told(record, 11), (true, true));
        assert_eq!(told(record, 100), (true, true));
        assert_eq!(told(record, 101), (false, false));
    }
    for form in SETTLED {
        let record = settled(form, FIRST_SIDE);
        assert_eq!(told(record, 1), (true, false));
        assert_eq!(told(record, 90), (true, false));
        assert_eq!(told(record, 91), (false, true));
    }
    let no_flows = settled((POOL, 3), SECOND_SIDE);
    assert_eq!(told(no_flows, 91), (false, false));
}
