//! A bond from named values.

use seddolki_format::record::{COUPONS, FIRST_SIDE, OUTRIGHT};
use seddolki_format::Record;
use seddolki_text::trade::{purchase_of, record_of, Value};
use seddolki_text::{bond_columns, Column, Decimals, Fault};

const BOND: [(&str, &str); 5] = [
    ("payments", "8"),
    ("period", "182"),
    ("coupon", "6.45"),
    ("first_payment_day", "120"),
    ("nominal", "5,000,000"),
];

fn values<'a>(pairs: &[(&str, &'a str)]) -> Vec<Value<'a>> {
    let value = |(name, text): &(&str, &'a str)| (Column::find(name).unwrap(), *text);
    pairs.iter().map(value).collect()
}

fn told(pairs: &[(&str, &str)]) -> Vec<String> {
    let faults = purchase_of(&values(pairs), Decimals::Point).unwrap_err();
    faults.iter().map(Fault::to_string).collect()
}

#[test]
fn a_bond_is_bought_outright_today() {
    let bond = purchase_of(&values(&BOND), Decimals::Point).unwrap();
    let due = Record {
        kind: OUTRIGHT,
        side: FIRST_SIDE,
        security: COUPONS,
        first_payment_day: 120,
        period: 182,
        payments: 8,
        coupon: 64_500,
        nominal: 500_000_000,
        ..Record::default()
    };
    assert_eq!(bond, due);
    let commas = [("nominal", "5.000.000,00"), ("coupon", "6,45")];
    let bond = purchase_of(
        &values(&[&BOND[..2], &BOND[3..4], &commas].concat()),
        Decimals::Comma,
    );
    assert_eq!(bond, Ok(due));
}

#[test]
fn it_reads_as_the_security_trade_columns_does() {
    let rest = [
        ("kind", "outright"),
        ("side", "buyer"),
        ("cash_curve", "1"),
        ("security", "coupons"),
        ("security_curve", "1"),
        ("value_day_1", "0"),
        ("clean_price", "99"),
        ("accrued", "0"),
    ];
    let trade = record_of(&values(&[&BOND[..], &rest].concat()), Decimals::Point).unwrap();
    let bond = purchase_of(&values(&BOND), Decimals::Point).unwrap();
    for column in bond_columns() {
        assert_eq!(column.get(&bond), column.get(&trade), "{}", column.name);
    }
}

#[test]
fn every_column_bond_columns_is_due() {
    for (place, (name, _)) in BOND.iter().enumerate() {
        let mut given = BOND.to_vec();
        given.remove(place);
        let faults = told(&given);
        assert_eq!(faults.len(), 1, "{faults:?}");
        let start = format!("column {name}: nothing is given: ");
        assert!(faults[0].starts_with(&start), "{faults:?}");
    }
    let names: Vec<&str> = bond_columns().iter().map(|column| column.name).collect();
    assert_eq!(
        names,
        [
            "nominal",
            "first_payment_day",
            "period",
            "payments",
            "coupon"
        ]
    );
}

#[test]
fn faults_are_told_in_the_order_of_the_columns() {
    let wrong = [
        ("coupon", "6.45000"),
        ("payments", "8"),
        ("payments", "9"),
        ("period", "half a year"),
        ("first_payment_day", "70000"),
        ("nominal", ""),
    ];
    assert_eq!(
        told(&wrong),
        [
            "column nominal: nothing is given: 0.01 to 10,000,000,000.00",
            "column first_payment_day: 70000 is too large: 1 to 10,950 days from the valuation day",
            "column period: half a year is not a number: 1 to 366",
            "column payments: it is given twice: 8 and 9",
            "column coupon: 6.45000 has more than 4 decimals: 0.0000 to 100.0000",
        ]
    );
}

#[test]
fn columns_of_other_trades_are_not_a_bond_s() {
    for (name, fault) in [
        ("cupon", "there is no column cupon: is coupon meant?"),
        (
            "term",
            "there is no column term: nominal, first_payment_day, period, payments or coupon",
        ),
    ] {
        let found = Column::find_among(&bond_columns(), name).unwrap_err();
        assert_eq!(found.to_string(), fault);
    }
}
