//! What a refused quote is told, example by example.

use seddolki_model::{accept_quote, bond_of, quote_fault, Curve, Ground, Node, Quote, Record};

fn curve(days: &[u16]) -> Curve {
    let mut curve = Curve {
        currency: 1,
        node_count: days.len() as u8,
        ..Curve::default()
    };
    for (place, &day) in curve.places.iter_mut().zip(days) {
        *place = Node {
            day,
            rate: 250_000,
            ..Node::default()
        };
    }
    curve
}

/// One with room for a node, one with none, one that ends on the last day.
fn curves() -> [Curve; 3] {
    let all: Vec<u16> = (1..=24).collect();
    [curve(&[365, 730]), curve(&all), curve(&[365, 10_950])]
}

/// A bond that pays on days 365, 730 and 1,095 and costs what it is worth at
/// 25%.
fn whole() -> Quote {
    Quote {
        curve: 1,
        bond: bond_of(&Record {
            first_payment_day: 365,
            period: 365,
            payments: 3,
            coupon: 100_000,
            nominal: 100_000_000,
            ..Record::default()
        }),
        cash: 70_720_000,
        components: [250_000, 0, 0],
    }
}

/// Sets a field of the bond.
fn bond(quote: &mut Quote, change: impl Fn(&mut Record)) {
    let mut bond = quote.purchase();
    change(&mut bond);
    quote.bond = bond_of(&bond);
}

/// A change to a quote, the field with what is there and due, and why.
type Example = (fn(&mut Quote), &'static str, &'static str);

fn tells(ground: Ground, examples: &[Example]) {
    assert_eq!(quote_fault(&whole(), &curves()), None);
    for (change, found, why) in examples {
        let mut quote = whole();
        change(&mut quote);
        let fault = quote_fault(&quote, &curves()).expect(found);
        assert_eq!(fault.to_string(), format!("field {found} is due: {why}"));
        assert_eq!(fault.ground, ground, "{fault}");
        assert_eq!(accept_quote(&quote, &curves()), Err(ground));
    }
}

#[test]
fn a_curve_that_the_book_lacks() {
    const CURVES: &str = "the book has curve 1 in TRY, 2 in TRY and 3 in TRY";
    tells(
        Ground::Form,
        &[
            (|q| q.curve = 0, "curve: 0 is there, 1, 2 or 3", CURVES),
            (|q| q.curve = 257, "curve: 257 is there, 1, 2 or 3", CURVES),
        ],
    );
}

#[test]
fn days_of_the_bond() {
    const AFTER: &str = "a quoted bond's payments fall after day 0, by day 10,950";
    const EARLY: &str = "first_payment_day: 0 is there, 1 to 10,220";
    const LATE: &str = "first_payment_day: 10,221 is there, 1 to 10,220";
    const APART: &str = "payments are 365 days apart, the last by day 10,950";
    const MANY: &str = "payments: 31 is there, 1 to 30";
    const LONG: &str = "period: 367 is there, 1 to 366";
    tells(
        Ground::Days,
        &[
            (|q| bond(q, |b| b.first_payment_day = 0), EARLY, AFTER),
            (|q| bond(q, |b| b.first_payment_day = 10_221), LATE, AFTER),
            (|q| bond(q, |b| b.payments = 31), MANY, APART),
            (
                |q| bond(q, |b| b.period = 367),
                LONG,
                "days from payment to payment",
            ),
        ],
    );
}

#[test]
fn amounts_of_the_bond_and_the_cash() {
    const NOMINAL: &str = "nominal: 0.00 is there, 0.01 to 10,000,000,000.00";
    const COUPON: &str = "coupon: 100.0001% is there, 0.0000% to 100.0000%";
    const CASH: &str = "cash: 10,000,000,000.01 is there, 0.01 to 10,000,000,000.00";
    tells(
        Ground::Amounts,
        &[
            (
                |q| bond(q, |b| b.nominal = 0),
                NOMINAL,
                "the nominal of the security",
            ),
            (
                |q| bond(q, |b| b.coupon = 1_000_001),
                COUPON,
                "the coupon per period",
            ),
            (
                |q| bond(q, |b| b.term = 7),
                "term: 7 is there, 0",
                "a quoted bond has no term",
            ),
            (
                |q| q.cash = 1_000_000_000_001,
                CASH,
                "what the bond costs today",
            ),
        ],
    );
}

#[test]
fn a_last_payment_above_the_limit() {
    const NOMINAL: &str = "nominal: 10,000,000,000.00 is there, less";
    const PAYMENT: &str = "it makes a payment of 11,000,000,000.00 on day 1,095, \
                           and a flow is 10,000,000,000.00 at most";
    let dear: Example = (
        |q| bond(q, |b| b.nominal = 1_000_000_000_000),
        NOMINAL,
        PAYMENT,
    );
    tells(Ground::FlowLimit, &[dear]);
}

#[test]
fn components_out_of_limits() {
    const LIMITS: &str = "components: -100.0001% is there, -100.0000% to 100.0000%";
    let low: Example = (
        |q| q.components[1] = -1_000_001,
        LIMITS,
        "how far component 2 moves the node",
    );
    tells(Ground::Node, &[low]);
}

#[test]
fn a_curve_without_room_or_a_bond_too_short() {
    const FULL: &str = "this one has 24 nodes, and no curve has more";
    const LAST: &str = "this one has its last node on day 10,950, and no day is later";
    const AFTER: &str = "the last payment falls after day 730, the curve's last node";
    const ONE: &str = "first_payment_day: 365 is there, 731 to 10,950";
    const THREE: &str = "first_payment_day: 20 is there, 71 to 10,290";
    tells(
        Ground::CurveEnd,
        &[
            (|q| q.curve = 2, "curve: 2 is there, another", FULL),
            (|q| q.curve = 3, "curve: 3 is there, another", LAST),
            (|q| bond(q, |b| b.payments = 1), ONE, AFTER),
            (
                |q| bond(q, |b| (b.first_payment_day, b.period) = (20, 330)),
                THREE,
                AFTER,
            ),
        ],
    );
}

#[test]
fn a_cash_that_no_rate_gives() {
    const WORTH: &str = "what the bond is worth at rates of 100% and 0% on its last payment day";
    const LOW: &str = "cash: 281,499.99 is there, 281,500.00 to 1,244,000.00";
    const HIGH: &str = "cash: 1,244,000.01 is there, 281,500.00 to 1,244,000.00";
    tells(
        Ground::RateRange,
        &[
            (|q| q.cash = 28_149_999, LOW, WORTH),
            (|q| q.cash = 124_400_001, HIGH, WORTH),
        ],
    );
}
