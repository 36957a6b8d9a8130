//! Trades from named values, and back.

use seddolki_books::curve::draw_curves;
use seddolki_books::{draw_record, Draw};
use seddolki_format::record::{
    COUPONS, FIRST_SIDE, NO_SECURITY, OUTRIGHT, POOL, SECOND_SIDE, SPECIFIED,
};
use seddolki_format::Record;
use seddolki_text::trade::{amend, record_of, values_of, Value};
use seddolki_text::{Column, Decimals, Fault, Unit, COLUMNS};

const ALL: [Decimals; 3] = [Decimals::Point, Decimals::Comma, Decimals::Either];

/// Trades with every column that they use.
const OUTRIGHT_BOUGHT: &str = "kind=outright; side=buyer; cash_curve=1; security=single payment; \
                               security_curve=1; nominal=10; value_day_1=0; first_payment_day=90; \
                               clean_price=98.75; accrued=2";
const POOL_REPO: &str = "kind=pool repo; side=repo; phase=1; cash_curve=2; value_day_1=0; \
                         value_day_2=7; term=7; repo_cash=500; repo_rate=13.2";
const SPECIFIED_REPO: &str = "kind=specified repo; side=repo; phase=2; cash_curve=1; \
                              security=indexed coupons; security_curve=1; nominal=10; \
                              value_day_2=7; term=9; first_payment_day=90; period=182; \
                              payments=4; coupon=0; repo_cash=8; repo_rate=0; \
                              settlement_index=12; issue_index=11";
const ALL_TRADES: [&str; 3] = [OUTRIGHT_BOUGHT, POOL_REPO, SPECIFIED_REPO];

/// A trade with some of its columns changed; a column without a sign of
/// equality is left out.
fn but(trade: &str, changes: &str) -> String {
    let name = |pair: &str| pair.split('=').next().unwrap().trim().to_owned();
    let changed: Vec<String> = changes.split(';').map(name).collect();
    let kept = trade
        .split(';')
        .filter(|pair| !changed.contains(&name(pair)));
    let changes = changes.split(';').filter(|pair| pair.contains('='));
    kept.chain(changes).collect::<Vec<_>>().join(";")
}

/// The values of a text like `nominal=1000; term=7`.
fn values(text: &str) -> Vec<Value<'_>> {
    let pairs = text.split(';').filter_map(|pair| pair.split_once('='));
    let pairs = pairs.map(|(name, text)| (Column::find(name).unwrap(), text));
    pairs.collect()
}

fn shown(faults: Vec<Fault>) -> Vec<String> {
    faults.iter().map(Fault::to_string).collect()
}

fn made(text: &str) -> Result<Record, Vec<String>> {
    record_of(&values(text), Decimals::Point).map_err(shown)
}

fn amended(record: &Record, text: &str) -> Result<Record, Vec<String>> {
    amend(record, &values(text), Decimals::Point).map_err(shown)
}

fn refused(text: &str) -> Vec<String> {
    made(text).unwrap_err()
}

#[test]
fn named_values_make_a_record() {
    let bond = "kind=Outright; side=SELLER; cash_curve=1; security=coupons; security_curve=2; \
                nominal=1,234.5; value_day_1=0; first_payment_day=10,950; period=182; payments=8; \
                coupon=6.45; clean_price=98.7501; accrued=0";
    let due = Record {
        kind: OUTRIGHT,
        side: SECOND_SIDE,
        cash_curve: 1,
        security: COUPONS,
        security_curve: 2,
        nominal: 123_450,
        first_payment_day: 10_950,
        period: 182,
        payments: 8,
        coupon: 64_500,
        price_or_rate: 987_501,
        ..Record::default()
    };
    assert_eq!(made(bond), Ok(due));
    let repo = "repo_rate=13.2; repo cash=500; term=7; phase=1; side=reverse_repo; \
                kind=pool_repo; cash_curve=2; value_day_2=7; value_day_1=0";
    let due = Record {
        kind: POOL,
        side: SECOND_SIDE,
        phase: 1,
        cash_curve: 2,
        value_day_2: 7,
        term: 7,
        repo_cash: 50_000,
        price_or_rate: 132_000,
        ..Record::default()
    };
    assert_eq!(made(repo), Ok(due));
}

#[test]
fn words_fit_their_kind() {
    let (outright, repo) = ("buyer or seller", "repo or reverse repo");
    for (trade, kind, sides, allowed) in [
        (
            OUTRIGHT_BOUGHT,
            "an outright",
            ["buyer", "seller"],
            outright,
        ),
        (POOL_REPO, "a pool repo", ["repo", "reverse repo"], repo),
        (
            SPECIFIED_REPO,
            "a specified repo",
            ["repo", "reverse repo"],
            repo,
        ),
    ] {
        for side in ["buyer", "seller", "repo", "reverse repo"] {
            let text = but(trade, &format!("side={side}"));
            match sides.iter().position(|own| *own == side) {
                Some(place) => assert_eq!(made(&text).unwrap().side, place as u8 + 1),
                None => assert_eq!(
                    refused(&text),
                    [format!("column side: {side} is not for {kind}: {allowed}")]
                ),
            }
        }
        for side in ["lender", "buyr", "1"] {
            let unknown = format!("column side: {side} is none of {allowed}");
            assert_eq!(refused(&but(trade, &format!("side={side}"))), [unknown]);
        }
        for left_empty in ["side", "side= "] {
            let nothing = format!("column side: nothing is given: {allowed}");
            assert_eq!(refused(&but(trade, left_empty)), [nothing]);
        }
    }
}

#[test]
fn securities_fit_their_kind() {
    let securities = "single payment, coupons or indexed coupons";
    for (trade, kind) in [
        (OUTRIGHT_BOUGHT, "an outright"),
        (SPECIFIED_REPO, "a specified repo"),
    ] {
        assert_eq!(
            refused(&but(trade, "security=none")),
            [format!(
                "column security: none is not for {kind}: {securities}"
            )]
        );
        assert_eq!(
            refused(&but(trade, "security=bond")),
            [format!("column security: bond is none of {securities}")]
        );
        assert_eq!(
            refused(&but(trade, "security")),
            [format!("column security: nothing is given: {securities}")]
        );
    }
    let none = made(POOL_REPO).unwrap();
    assert_eq!(none.security, NO_SECURITY);
    assert_eq!(made(&but(POOL_REPO, "security=none")), Ok(none));
    assert_eq!(
        refused(&but(POOL_REPO, "security=bond")),
        [format!(
            "column security: bond is none of none, {securities}"
        )]
    );
    // the engine tells that a pool repo of this phase has a security
    let second = made(&but(POOL_REPO, "phase=2; security=none")).unwrap();
    assert_eq!(second, Record { phase: 2, ..none });
}

/// Every accepted trade, without one of the columns that it uses.
#[test]
fn a_used_column_has_to_be_given() {
    let mut told = 0;
    for record in drawn(3, 500) {
        for decimals in ALL {
            let values = values_of(&record, decimals);
            for left_out in &COLUMNS {
                let mut given = lent(&values);
                given.retain(|(column, _)| *column != left_out);
                let found = record_of(&given, decimals);
                if !left_out.is_used(&record) || left_out.name == "security" && record.security == 0
                {
                    assert_eq!(found, Ok(record), "{}", left_out.name);
                    continue;
                }
                let allowed = left_out.allowed(&record, decimals);
                let message = format!("column {}: nothing is given: {allowed}", left_out.name);
                assert_eq!(shown(found.unwrap_err()), [message]);
                told += 1;
            }
        }
    }
    assert!(told > 10_000, "{told}");
}

#[test]
fn nothing_is_said_of_columns_whose_use_is_not_known() {
    let columns = |text: &str| -> Vec<String> {
        let faults = record_of(&values(text), Decimals::Point).unwrap_err();
        faults
            .iter()
            .map(|fault| fault.column.unwrap().to_owned())
            .collect()
    };
    let kind = "column kind: nothing is given: outright, pool repo or specified repo";
    assert_eq!(refused(""), [kind]);
    assert_eq!(columns("kind=swap; cash_curve=-1"), ["kind", "cash_curve"]);
    assert_eq!(
        columns("kind=outright; side=buyer"),
        [
            "cash_curve",
            "security",
            "security_curve",
            "nominal",
            "value_day_1",
            "first_payment_day",
            "clean_price",
            "accrued",
        ]
    );
    let repo = [
        "cash_curve",
        "value_day_2",
        "term",
        "repo_cash",
        "repo_rate",
    ];
    let due = [&["side", "phase"][..], &repo].concat();
    assert_eq!(columns("kind=pool repo"), due);
    // whether value day 1 is used is not known of these phases
    for phase in ["0", "4", "256", "x"] {
        let right = but(POOL_REPO, "value_day_1; phase=3");
        let trade = but(&right, &format!("phase={phase}"));
        let faults = record_of(&values(&trade), Decimals::Point)
            .err()
            .unwrap_or_default();
        assert!(
            faults.iter().all(|fault| fault.column == Some("phase")),
            "{faults:?}"
        );
    }
    assert_eq!(
        columns(&but(
            SPECIFIED_REPO,
            "phase; security; coupon; payments; nominal"
        )),
        ["phase", "security", "nominal"]
    );
    assert_eq!(
        columns(&but(
            SPECIFIED_REPO,
            "security=bond; period; issue_index; nominal"
        )),
        ["security", "nominal"]
    );
    assert_eq!(
        refused(&but(SPECIFIED_REPO, "phase")),
        ["column phase: nothing is given: 1 to 2"]
    );
}

#[test]
fn a_missing_kind_is_the_fault_of_its_column() {
    let nothing = "column kind: nothing is given: outright, pool repo or specified repo";
    assert_eq!(
        refused("side=buyer; clean_price=99; repo_rate=13"),
        [nothing]
    );
    assert_eq!(refused("kind=; side=repo; repo_rate=13"), [nothing]);
    assert_eq!(
        refused("kind=swap; side=payer"),
        [
            "column kind: swap is none of outright, pool repo or specified repo",
            "column side: payer is none of buyer, seller, repo or reverse repo",
        ]
    );
}

#[test]
fn prices_fit_their_kind() {
    let [outright, pool, specified] = ALL_TRADES;
    let repo_prices = "which has repo_rate and repo_cash: leave it empty";
    for (trade, value, due) in [
        (
            outright,
            "repo_rate=13.2",
            "column repo_rate: 13.2 is not for an outright, which has clean_price and accrued: \
             leave it empty",
        ),
        (
            outright,
            "repo_cash=0",
            "column repo_cash: 0 is not for an outright, which has clean_price and accrued: \
             leave it empty",
        ),
        (
            pool,
            "clean_price=99",
            &format!("column clean_price: 99 is not for a pool repo, {repo_prices}"),
        ),
        (
            specified,
            "accrued=x",
            &format!("column accrued: x is not for a specified repo, {repo_prices}"),
        ),
    ] {
        assert_eq!(refused(&but(trade, value)), [due]);
        let (name, _) = value.split_once('=').unwrap();
        assert_eq!(
            made(&but(trade, &format!("{name}="))),
            made(trade),
            "{name}"
        );
    }
    assert_eq!(
        refused(&format!("{outright}; repo_rate=; repo_rate=")),
        ["column repo_rate: it is given twice: nothing and nothing"]
    );
}

#[test]
fn a_0_that_is_meant_is_written() {
    let outright = but(OUTRIGHT_BOUGHT, "security=coupons; period=91; payments=2");
    for (trade, column, limits) in [
        (POOL_REPO, "repo_rate", "0.0000 to 100.0000"),
        (SPECIFIED_REPO, "repo_rate", "0.0000 to 100.0000"),
        (SPECIFIED_REPO, "coupon", "0.0000 to 100.0000"),
        (&but(&outright, "coupon=1"), "accrued", "0.0000 to 100.0000"),
    ] {
        let nothing = format!("column {column}: nothing is given: {limits}");
        assert_eq!(refused(&but(trade, column)), [nothing.as_str()]);
        assert_eq!(
            refused(&but(trade, &format!("{column}= "))),
            [nothing.as_str()]
        );
        let column = Column::find(column).unwrap();
        let zero = made(&but(trade, &format!("{}=0", column.name))).unwrap();
        assert_eq!(column.get(&zero), 0);
        let changed = amended(&zero, "cash_curve=5").unwrap();
        assert_eq!(
            changed,
            Record {
                cash_curve: 5,
                ..zero
            }
        );
        assert_eq!(
            amended(&zero, &format!("{}=", column.name)).unwrap_err(),
            [nothing]
        );
    }
}

#[test]
fn a_column_is_given_once() {
    let trade = but(OUTRIGHT_BOUGHT, "nominal");
    assert_eq!(
        refused(&format!("{trade}; nominal=1000; term=7; nominal=2000")),
        ["column nominal: it is given twice: 1000 and 2000"]
    );
    assert_eq!(
        refused(&format!("{trade}; nominal=5; Nominal=5; NOMINAL=")),
        ["column nominal: it is given 3 times: 5, 5 and nothing"]
    );
    assert_eq!(
        refused("kind=outright; kind=outright; side=repo"),
        ["column kind: it is given twice: outright and outright"]
    );
}

#[test]
fn all_faults_are_told_at_once_with_what_is_allowed() {
    let trade = "issue_index=1.5; kind=pool repo; side=buyer; phase=256; cash_curve=-1; \
                 security=bond; nominal=lots; value_day_1=70000; coupon=13,250; clean_price=1; \
                 repo_cash=5.001; repo_rate=13,25";
    assert_eq!(
        refused(trade),
        [
            "column side: buyer is not for a pool repo: repo or reverse repo",
            "column phase: 256 is too large: 1 to 3",
            "column cash_curve: -1 is too small: 1 to 8",
            "column security: bond is none of none, single payment, coupons or indexed coupons",
            "column nominal: lots is not a number: 0.01 to 10,000,000,000.00",
            "column value_day_1: 70000 is too large: 0 to 10,950 days from the valuation day",
            "column value_day_2: nothing is given: 0 to 10,950 days from the valuation day",
            "column term: nothing is given: 1 to 730",
            "column coupon: 13,250 can be read as 13,250.0000 or 13.2500: \
             write it in one of these ways",
            "column clean_price: 1 is not for a pool repo, which has repo_rate and repo_cash: \
             leave it empty",
            "column repo_cash: 5.001 has more than 2 decimals: 0.01 to 10,000,000,000.00",
            "column repo_rate: 13,25 is not a number with a decimal point: write 13.2500",
            "column issue_index: 1.5 is not a whole number: 1 to 10,000,000",
        ]
    );
}

#[test]
fn days_are_counted_from_the_valuation_day() {
    for (column, least) in [("value_day_1", 0), ("first_payment_day", 1)] {
        for date in ["2026-05-04", "04.05.2026", "4.5.2026", "05/04/2026"] {
            let trade = but(OUTRIGHT_BOUGHT, &format!("{column}={date}"));
            let wrong =
                format!("{date} is not a number: {least} to 10,950 days from the valuation day");
            assert_eq!(refused(&trade), [format!("column {column}: {wrong}")]);
        }
    }
    assert_eq!(
        refused(&but(OUTRIGHT_BOUGHT, "value_day_1")),
        ["column value_day_1: nothing is given: 0 to 10,950 days from the valuation day"]
    );
    let repo = values("kind=pool repo; side=repo; phase=1; value_day_2=04.05.2026");
    for (decimals, most) in [(Decimals::Comma, "10.950"), (Decimals::Either, "10,950")] {
        let faults = shown(record_of(&repo, decimals).unwrap_err());
        let due = format!("04.05.2026 is not a number: 0 to {most} days from the valuation day");
        assert!(
            faults.contains(&format!("column value_day_2: {due}")),
            "{faults:?}"
        );
    }
}

#[test]
fn limits_are_told_in_the_dialect() {
    let trade = but(OUTRIGHT_BOUGHT, "nominal=lots; clean_price=98,75; accrued");
    let faults = record_of(&values(&trade), Decimals::Comma).unwrap_err();
    assert_eq!(
        shown(faults),
        [
            "column nominal: lots is not a number: 0,01 to 10.000.000.000,00",
            "column accrued: nothing is given: 0,0000 to 100,0000",
        ]
    );
}

/// Accepted records.
fn drawn(seed: u64, count: usize) -> Vec<Record> {
    let mut draw = Draw::new(seed);
    let mut record = || {
        let curves = draw_curves(&mut draw);
        draw_record(&mut draw, &curves, 120)
    };
    (0..count).map(|_| record()).collect()
}

fn lent<'a>(values: &'a [(&'static Column, String)]) -> Vec<Value<'a>> {
    let lent = |(column, text): &'a (&'static Column, String)| (*column, text.as_str());
    values.iter().map(lent).collect()
}

#[test]
fn every_accepted_record_survives() {
    for record in drawn(1, 2_000) {
        for decimals in ALL {
            let values = values_of(&record, decimals);
            assert_eq!(record_of(&lent(&values), decimals), Ok(record));
            let given: Vec<Value> = lent(&values)
                .into_iter()
                .filter(|(_, text)| !text.is_empty())
                .collect();
            assert_eq!(record_of(&given, decimals), Ok(record));
        }
    }
}

#[test]
fn amended_columns_change_and_others_stay() {
    let records = drawn(2, 500);
    for (record, other) in records.iter().zip(&records[1..]) {
        for decimals in ALL {
            assert_eq!(amend(record, &[], decimals), Ok(*record));
            let values = values_of(other, decimals);
            assert_eq!(amend(record, &lent(&values), decimals), Ok(*other));
        }
        let changed = Record {
            value_day_1: 11,
            nominal: 5,
            ..*record
        };
        assert_eq!(amended(record, "nominal=0.05; value_day_1=11"), Ok(changed));
    }
}

/// Each column by itself, its value kept or changed.
#[test]
fn amending_a_column_asks_for_no_other() {
    for record in drawn(4, 500) {
        for column in COLUMNS.iter().filter(|column| column.is_used(&record)) {
            let text = column.text(&record, Decimals::Point);
            assert_eq!(
                amend(&record, &[(column, &text)], Decimals::Point),
                Ok(record)
            );
            if let Unit::Number(_) = column.unit {
                let mut changed = record;
                column.set(&mut changed, 1).unwrap();
                if changed.first_leg_settled() == record.first_leg_settled() {
                    let text = column.text(&changed, Decimals::Point);
                    let found = amend(&record, &[(column, &text)], Decimals::Point);
                    assert_eq!(found, Ok(changed), "{}", column.name);
                }
            }
        }
    }
}

#[test]
fn what_an_amended_trade_uses_besides_is_asked_for() {
    let bond = made(OUTRIGHT_BOUGHT).unwrap();
    assert_eq!(
        amended(&bond, "security=coupons; payments=4").unwrap_err(),
        [
            "column period: nothing is given: 1 to 366",
            "column coupon: nothing is given: 0.0000 to 100.0000",
        ]
    );
    let repo = made(POOL_REPO).unwrap();
    let securities = "single payment, coupons or indexed coupons";
    assert_eq!(
        amended(&repo, "phase=2; nominal=5; first_payment_day=9").unwrap_err(),
        [
            format!("column security: nothing is given: {securities}"),
            "column security_curve: nothing is given: 1 to 8".into(),
        ]
    );
}

/// What an outright needs to become a repo.
const REPO: &str = "phase=2; value_day_2=7; term=7; repo_cash=9; repo_rate=0";

#[test]
fn an_amended_kind_takes_its_words_and_prices_along() {
    let bond = made(OUTRIGHT_BOUGHT).unwrap();
    let zero = Record { accrued: 0, ..bond };
    let unfit = |column, text| {
        format!(
            "column {column}: {text} is not for a pool repo, which has repo_rate and repo_cash: \
             leave it empty"
        )
    };
    let side = "column side: buyer is not for a pool repo: repo or reverse repo";
    assert_eq!(
        amended(&bond, &format!("kind=pool repo; {REPO}")).unwrap_err(),
        [
            side.into(),
            unfit("clean_price", "98.7500"),
            unfit("accrued", "2.0000")
        ]
    );
    assert_eq!(
        amended(&zero, &format!("kind=pool repo; {REPO}")).unwrap_err(),
        [side.into(), unfit("clean_price", "98.7500")]
    );
    let repo = amended(
        &bond,
        &format!("kind=pool repo; side=repo; clean_price=; accrued=; {REPO}"),
    );
    let due = Record {
        kind: POOL,
        side: FIRST_SIDE,
        phase: 2,
        value_day_2: 7,
        term: 7,
        repo_cash: 900,
        price_or_rate: 0,
        accrued: 0,
        ..bond
    };
    assert_eq!(repo, Ok(due));
    let repo = amended(
        &zero,
        &format!("kind=pool repo; side=repo; clean_price=; {REPO}"),
    );
    assert_eq!(repo, Ok(due));
    let specified = Record {
        kind: SPECIFIED,
        ..due
    };
    assert_eq!(amended(&due, "kind=specified repo"), Ok(specified));
    assert_eq!(
        amended(&due, "side=seller; clean_price=99").unwrap_err(),
        [
            "column side: seller is not for a pool repo: repo or reverse repo".into(),
            unfit("clean_price", "99"),
        ]
    );
    assert_eq!(
        amended(&due, "term=1; term=1").unwrap_err(),
        ["column term: it is given twice: 1 and 1"]
    );
    assert_eq!(
        amended(&due, "kind=").unwrap_err(),
        ["column kind: nothing is given: outright, pool repo or specified repo"]
    );
}
