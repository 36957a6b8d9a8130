//! What a refused record is told, example by example.

mod samples;

use samples::single_payment;
use seddolki_model::{record_fault, Curve, Ground, Record};

/// Two curves in TRY and one in USD.
fn curves() -> [Curve; 3] {
    [1, 1, 2].map(|currency| Curve {
        currency,
        ..Curve::default()
    })
}

/// A buyer's trade with a single payment.
fn single() -> Record {
    Record {
        value_day_1: 1,
        ..single_payment()
    }
}

fn coupons() -> Record {
    Record {
        security: 2,
        period: 182,
        payments: 4,
        coupon: 25_000,
        ..single()
    }
}

fn indexed() -> Record {
    Record {
        security: 3,
        settlement_index: 11,
        issue_index: 10,
        ..coupons()
    }
}

fn specified() -> Record {
    Record {
        kind: 3,
        phase: 1,
        value_day_2: 8,
        term: 7,
        repo_cash: 50_000,
        price_or_rate: 132_500,
        ..single()
    }
}

fn settled() -> Record {
    Record {
        phase: 2,
        value_day_1: 0,
        value_day_2: 7,
        ..specified()
    }
}

/// A pool repo before its securities are known.
fn pool() -> Record {
    Record {
        kind: 2,
        security: 0,
        security_curve: 0,
        first_payment_day: 0,
        nominal: 0,
        ..specified()
    }
}

/// A change to a record, the field with what is there and due, and why.
type Example = (fn(&mut Record), &'static str, &'static str);

fn tells(ground: Ground, whole: Record, examples: &[Example]) {
    assert_eq!(record_fault(&whole, &curves()), None);
    for (change, found, why) in examples {
        let mut record = whole;
        change(&mut record);
        let fault = record_fault(&record, &curves()).expect(found);
        assert_eq!(fault.to_string(), format!("field {found} is due: {why}"));
        assert_eq!(fault.ground, ground, "{fault}");
    }
}

const SECURITY: &str = "a pool repo in phase 1 has no security, every other trade has one";
const NO_SECURITY: &str = "security: 0 (none) is there, \
                           1 (single payment), 2 (coupons) or 3 (indexed coupons)";
const CURVES: &str = "the book has curve 1 in TRY, 2 in TRY and 3 in USD";

#[test]
fn no_kind_at_all() {
    let fault = record_fault(&Record::default(), &curves()).unwrap();
    assert_eq!(fault.ground, Ground::Form);
    assert_eq!(
        fault.to_string(),
        "field kind: 0 is there, 1 (outright), 2 (pool repo) or 3 (specified repo) is due: \
         the kind of trade"
    );
}

#[test]
fn the_form_of_an_outright() {
    const SIDES: &str = "side: 3 is there, \
                         1 (buyer or repo member) or 2 (seller or reverse-repo member)";
    tells(
        Ground::Form,
        single(),
        &[
            (|r| r.side = 3, SIDES, "the side of the account"),
            (
                |r| r.phase = 1,
                "phase: 1 is there, 0",
                "an outright has no phase",
            ),
            (|r| r.security = 0, NO_SECURITY, SECURITY),
            (
                |r| r.cash_curve = 4,
                "cash_curve: 4 is there, 1, 2 or 3",
                CURVES,
            ),
            (
                |r| r.security_curve = 0,
                "security_curve: 0 is there, 1, 2 or 3",
                CURVES,
            ),
        ],
    );
}

#[test]
fn the_form_of_a_repo() {
    const UNUSED: &str = "a trade without security has no security curve";
    const PAID: &str = "security: 1 (single payment) is there, 0 (none)";
    tells(
        Ground::Form,
        pool(),
        &[
            (
                |r| r.phase = 4,
                "phase: 4 is there, 1, 2 or 3",
                "the phases of a pool repo",
            ),
            (|r| r.security = 1, PAID, SECURITY),
            (
                |r| r.security_curve = 1,
                "security_curve: 1 is there, 0",
                UNUSED,
            ),
            (|r| r.kind = 3, NO_SECURITY, SECURITY),
        ],
    );
    tells(
        Ground::Form,
        specified(),
        &[(
            |r| r.phase = 3,
            "phase: 3 is there, 1 or 2",
            "the phases of a specified repo",
        )],
    );
}

fn set_days(record: &mut Record, first: u16, second: u16, term: u16) {
    (record.value_day_1, record.value_day_2, record.term) = (first, second, term);
}

#[test]
fn the_term_of_a_repo() {
    const TERM: &str = "the days from value day 1 to value day 2";
    const LIMITS: &str = "term: 731 is there, 1 to 730";
    tells(
        Ground::Days,
        pool(),
        &[
            (|r| r.term = 6, "term: 6 is there, 7", TERM),
            (|r| r.term = 0, "term: 0 is there, 7", TERM),
            (|r| r.term = 731, "term: 731 is there, 7", TERM),
            (|r| set_days(r, 1, 732, 731), LIMITS, "days of a repo"),
        ],
    );
}

#[test]
fn the_value_days_of_a_repo() {
    const APART: &str = "value day 2 falls after value day 1, by 730 days at most";
    const LATE: &str = "value day 2 falls after value day 1, by day 10,950";
    const LAST: &str = "value_day_2: 10,951 is there, 10,945 to 10,950";
    const FIRST: &str = "value_day_1: 10,950 is there, 0 to 10,949";
    tells(
        Ground::Days,
        pool(),
        &[
            (
                |r| r.value_day_2 = 732,
                "value_day_2: 732 is there, 2 to 731",
                APART,
            ),
            (
                |r| r.value_day_2 = 1,
                "value_day_2: 1 is there, 2 to 731",
                APART,
            ),
            (
                |r| r.value_day_1 = 9,
                "value_day_2: 8 is there, 10 to 739",
                APART,
            ),
            (|r| set_days(r, 10_944, 10_951, 7), LAST, APART),
            (|r| r.value_day_1 = 10_950, FIRST, LATE),
        ],
    );
}

#[test]
fn a_repo_whose_first_leg_has_settled() {
    const SETTLED: &str = "where the first leg has settled, value day 2 is at most the term";
    const PAYMENTS: &str = "where the first leg has settled, payments fall after day 0, \
                            by day 10,950";
    const UNUSED: &str = "where the first leg has settled, value day 1 is unused";
    tells(
        Ground::Days,
        settled(),
        &[
            (
                |r| r.value_day_2 = 8,
                "value_day_2: 8 is there, 0 to 7",
                SETTLED,
            ),
            (
                |r| r.term = 731,
                "term: 731 is there, 1 to 730",
                "days of a repo",
            ),
            (
                |r| r.first_payment_day = 0,
                "first_payment_day: 0 is there, 1 to 10,950",
                PAYMENTS,
            ),
        ],
    );
    let unused: Example = (|r| r.value_day_1 = 1, "value_day_1: 1 is there, 0", UNUSED);
    tells(Ground::Amounts, settled(), &[unused]);
}

#[test]
fn a_repo_whose_security_leaves_on_value_day_1() {
    const PAYMENTS: &str = "a repo's payments fall after value day 1, by day 10,950";
    const EARLY: &str = "first_payment_day: 1 is there, 2 to 10,950";
    const LEGS: &str = "value day 2 falls after value day 1, by day 10,950";
    const LATE: &str = "value_day_1: 10,950 is there, 0 to 10,949";
    tells(
        Ground::Days,
        specified(),
        &[
            (|r| r.first_payment_day = 1, EARLY, PAYMENTS),
            (|r| r.value_day_1 = 10_950, LATE, LEGS),
        ],
    );
}

#[test]
fn the_first_payment_day() {
    const AFTER: &str = "an outright's payments fall after value day 1, by day 10,950";
    const VALUE_DAY: &str = "value_day_1: 10,950 is there, 0 to 10,949";
    const LATE: &str = "first_payment_day: 10,405 is there, 2 to 10,404";
    const LONG: &str = "first_payment_day: 365 is there, 2 to 30";
    tells(
        Ground::Days,
        coupons(),
        &[
            (|r| r.value_day_1 = 10_950, VALUE_DAY, AFTER),
            (|r| r.first_payment_day = 10_405, LATE, AFTER),
            (|r| r.payments = 61, LONG, AFTER),
        ],
    );
    const EARLY: &str = "first_payment_day: 1 is there, 2 to 10,950";
    tells(
        Ground::Days,
        single(),
        &[(|r| r.first_payment_day = 1, EARLY, AFTER)],
    );
}

#[test]
fn the_schedule_of_coupons() {
    const APART: &str = "payments are 182 days apart, the last by day 10,950";
    const PERIOD: &str = "period: 367 is there, 1 to 366";
    tells(
        Ground::Days,
        coupons(),
        &[
            (|r| r.payments = 0, "payments: 0 is there, 1 to 61", APART),
            (|r| r.payments = 62, "payments: 62 is there, 1 to 61", APART),
            (
                |r| r.payments = 121,
                "payments: 121 is there, 1 to 61",
                APART,
            ),
            (|r| r.period = 367, PERIOD, "days from payment to payment"),
        ],
    );
}

#[test]
fn a_single_payment_has_no_schedule_that_could_be_too_long() {
    const UNUSED: &str = "only coupons have a period, payments and a coupon";
    fn schedule(record: &mut Record) {
        (record.period, record.payments) = (366, 120);
    }
    let unused: Example = (schedule, "period: 366 is there, 0", UNUSED);
    tells(Ground::Amounts, single(), &[unused]);
}

#[test]
fn amounts_of_an_outright() {
    const ACCRUED: &str = "what has accrued on an outright's security";
    const PRICE: &str = "price_or_rate: 400.0001% is there, 0.0001% to 400.0000%";
    const NOMINAL: &str = "nominal: 0.00 is there, 0.01 to 10,000,000,000.00";
    const LIMITS: &str = "accrued: 100.0001% is there, 0.0000% to 100.0000%";
    const COUPON: &str = "coupon: 250.0000% is there, 0.0000% to 100.0000%";
    const SETTLEMENT: &str = "settlement_index: 0 is there, 1 to 10,000,000";
    const ISSUE: &str = "issue_index: 0 is there, 1 to 10,000,000";
    fn indices(record: &mut Record, settlement: u32, issue: u32) {
        (record.settlement_index, record.issue_index) = (settlement, issue);
    }
    tells(
        Ground::Amounts,
        indexed(),
        &[
            (
                |r| r.price_or_rate = 4_000_001,
                PRICE,
                "the clean price of an outright",
            ),
            (|r| r.accrued = 1_000_001, LIMITS, ACCRUED),
            (|r| r.nominal = 0, NOMINAL, "the nominal of the security"),
            (|r| r.coupon = 2_500_000, COUPON, "the coupon per period"),
            (
                |r| indices(r, 0, 0),
                SETTLEMENT,
                "index at settlement, of indexed coupons",
            ),
            (
                |r| indices(r, 5, 0),
                ISSUE,
                "index at issue, of indexed coupons",
            ),
        ],
    );
}

#[test]
fn amounts_of_a_repo() {
    const CASH: &str = "repo_cash: 10,000,000,000.01 is there, 0.01 to 10,000,000,000.00";
    const RATE: &str = "price_or_rate: 100.0001% is there, 0.0000% to 100.0000%";
    tells(
        Ground::Amounts,
        pool(),
        &[
            (
                |r| r.repo_cash = 1_000_000_000_001,
                CASH,
                "the cash of a repo",
            ),
            (|r| r.price_or_rate = 1_000_001, RATE, "the rate of a repo"),
        ],
    );
}

#[test]
fn fields_due_to_be_0_in_an_outright() {
    const REPO: &str = "an outright has no value day 2, term or repo cash";
    const COUPONS: &str = "only coupons have a period, payments and a coupon";
    const INDICES: &str = "only indexed coupons have indices";
    tells(
        Ground::Amounts,
        single(),
        &[
            (
                |r| r.zero = 256,
                "zero: 256 is there, 0",
                "bytes 6 and 7 of a record are 0",
            ),
            (|r| r.value_day_2 = 5, "value_day_2: 5 is there, 0", REPO),
            (|r| r.term = 5, "term: 5 is there, 0", REPO),
            (|r| r.repo_cash = 5, "repo_cash: 0.05 is there, 0.00", REPO),
            (|r| r.period = 5, "period: 5 is there, 0", COUPONS),
            (|r| r.payments = 5, "payments: 5 is there, 0", COUPONS),
            (
                |r| r.coupon = 5,
                "coupon: 0.0005% is there, 0.0000%",
                COUPONS,
            ),
            (
                |r| r.settlement_index = 5,
                "settlement_index: 5 is there, 0",
                INDICES,
            ),
            (|r| r.issue_index = 5, "issue_index: 5 is there, 0", INDICES),
        ],
    );
}

#[test]
fn fields_due_to_be_0_in_a_repo() {
    const NONE: &str = "a trade without security has no first payment day or nominal";
    const ACCRUED: &str = "accrued: 0.0005% is there, 0.0000%";
    tells(
        Ground::Amounts,
        pool(),
        &[
            (|r| r.accrued = 5, ACCRUED, "a repo has no accrued"),
            (
                |r| r.first_payment_day = 5,
                "first_payment_day: 5 is there, 0",
                NONE,
            ),
            (|r| r.nominal = 5, "nominal: 0.05 is there, 0.00", NONE),
        ],
    );
}

#[test]
fn curves_of_two_currencies() {
    const FOREIGN: &str = "curve 3 is in USD, and cash curve 1 in TRY";
    const ALONE: &str = "curve 1 is in TRY, and cash curve 3 in USD";
    tells(
        Ground::Currency,
        single(),
        &[
            (
                |r| r.security_curve = 3,
                "security_curve: 3 is there, 1 or 2",
                FOREIGN,
            ),
            (|r| r.cash_curve = 3, "security_curve: 1 is there, 3", ALONE),
        ],
    );
}

#[test]
fn flows_above_the_limit() {
    const NOMINAL: &str = "nominal: 10,000,000,000.00 is there, less";
    const CASH: &str = "repo_cash: 10,000,000,000.00 is there, less";
    const SETTLEMENT: &str = "it makes a settlement cash of 12,000,000,000.00 on day 1, \
                              and a flow is 10,000,000,000.00 at most";
    const PAYMENT: &str = "it makes a payment of 10,250,000,000.00 on day 911, \
                           and a flow is 10,000,000,000.00 at most";
    const SECOND_LEG: &str = "it makes a second leg of 10,021,599,315.06 on day 8, \
                              and a flow is 10,000,000,000.00 at most";
    fn dear(record: &mut Record) {
        (record.nominal, record.price_or_rate) = (1_000_000_000_000, 1_200_000);
    }
    const INSIDE: &str = "it makes a payment of 10,250,000,000.00 on day 8, \
                          and a flow is 10,000,000,000.00 at most";
    let payment: Example = (|r| r.nominal = 1_000_000_000_000, NOMINAL, PAYMENT);
    let inside: Example = (|r| r.nominal = 1_000_000_000_000, NOMINAL, INSIDE);
    let second_leg: Example = (|r| r.repo_cash = 1_000_000_000_000, CASH, SECOND_LEG);
    tells(Ground::FlowLimit, single(), &[(dear, NOMINAL, SETTLEMENT)]);
    tells(Ground::FlowLimit, coupons(), &[payment]);
    tells(Ground::FlowLimit, specified(), &[second_leg]);
    // the last of two payments falls on value day 2
    let ends_inside = Record {
        security: 2,
        first_payment_day: 4,
        period: 4,
        payments: 2,
        coupon: 25_000,
        ..specified()
    };
    tells(Ground::FlowLimit, ends_inside, &[inside]);
}
