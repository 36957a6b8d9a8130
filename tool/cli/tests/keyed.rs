//! What is keyed wrongly is refused, with the column, what was there and
//! what is allowed.

mod tool;

use tool::{Desk, MISUSED, REFUSED};

const REPO: &str = "kind,side,phase,cash_curve,value_day_1,value_day_2,term,repo_cash,repo_rate\n\
                    pool repo,repo,1,2,1,8,7,500.00,13.2\n";

const BOND: &str = "kind,side,cash_curve,security,security_curve,nominal,value_day_1,\
                    first_payment_day,period,payments,coupon,clean_price,accrued\n\
                    outright,buyer,1,coupons,1,1000.00,1,90,91,4,2.5,99,0\n";

/// The refusal of an import of these lines, and the book kept.
fn import(lines: &str) -> String {
    let desk = Desk::with("desk.book");
    desk.write("trades.csv", lines);
    let before = desk.read("desk.book");
    let refusal = desk.refused(&["import", "desk.book", "trades.csv"]);
    assert_eq!(desk.read("desk.book"), before);
    assert_eq!(desk.files(), ["desk.book", "trades.csv"]);
    refusal
}

/// That a line below the right one is refused in a column, with these words.
fn refused(form: &str, line: &str, column: &str, words: &[&str]) {
    let refusal = import(&format!("{form}{line}\n"));
    let start = format!("trades.csv: line 3, column {column}: ");
    assert!(refusal.starts_with(&start), "{refusal}\n{start}");
    for word in words {
        assert!(refusal.contains(word), "{refusal}\n{word}");
    }
}

#[test]
fn texts_that_are_no_value_of_their_column() {
    refused(
        REPO,
        "swap,repo,1,2,1,8,7,500,13",
        "kind",
        &["swap", "outright, pool repo or specified repo"],
    );
    refused(
        REPO,
        "pool repo,repo,1,2,1,8,7,lots,13",
        "repo_cash",
        &["lots"],
    );
    refused(
        REPO,
        "pool repo,repo,1,2,1,8,7,5.001,13",
        "repo_cash",
        &["5.001", "2 decimals"],
    );
    refused(
        REPO,
        "pool repo,repo,1,2,-1,8,7,500,13",
        "value_day_1",
        &["-1"],
    );
    refused(
        REPO,
        "pool repo,repo,1,2,1,8,70000,500,13",
        "term",
        &["70000"],
    );
    let refusal = import(&format!("{REPO}pool repo,repo,1,2,1,8,7,500\n"));
    assert!(refusal.starts_with("trades.csv: line 3"), "{refusal}");
    let refusal = import(&format!("{REPO}pool repo,\"repo,1\n"));
    assert!(refusal.starts_with("trades.csv: line 3"), "{refusal}");
}

#[test]
fn sides_fit_their_kind() {
    let desk = Desk::with("desk.book");
    let before = desk.read("desk.book");
    // whole trades, but for the side
    let repo = "kind=pool repo;phase=1;cash_curve=2;value_day_1=1;value_day_2=8;term=7;\
                repo_cash=5;repo_rate=9";
    let outright = tool::outright(5).join(";").replace("side=buyer;", "");
    for (trade, side, allowed) in [
        (repo, "buyer", "repo or reverse repo"),
        (repo, "seller", "repo or reverse repo"),
        (&outright, "repo", "buyer or seller"),
        (&outright, "reverse repo", "buyer or seller"),
    ] {
        let mut values: Vec<String> = trade.split(';').map(str::to_owned).collect();
        values.push(format!("side={side}"));
        let run = desk.append("desk.book", &values);
        assert_eq!((run.status, run.out.as_str()), (REFUSED, ""), "{side}");
        let line = format!("column side: {side} is not for a");
        assert!(
            run.err.contains(&line) && run.err.contains(allowed),
            "{}",
            run.err
        );
        assert_eq!(run.err.lines().count(), 1, "{}", run.err);
    }
    assert_eq!(desk.read("desk.book"), before);
}

#[test]
fn numbers_that_the_engine_refuses_are_told_by_column() {
    refused(
        REPO,
        "pool repo,repo,1,4,1,8,7,500,13",
        "cash_curve",
        &["4 is there", "1, 2 or 3", "ground 8"],
    );
    refused(
        REPO,
        "pool repo,repo,4,2,1,8,7,500,13",
        "phase",
        &["4 is there", "1, 2 or 3"],
    );
    refused(
        REPO,
        "pool repo,repo,1,2,1,8,6,500,13",
        "term",
        &["6 is there", "7 is due", "refused by ground 9 in block 5"],
    );
    refused(
        REPO,
        "pool repo,repo,1,2,1,8,7,,13",
        "repo_cash",
        &["nothing is given", "0.01 to 10,000,000,000.00"],
    );
    refused(
        REPO,
        "pool repo,repo,1,2,1,8,7,500,101",
        "repo_rate",
        &["101", "100", "ground 10"],
    );
    refused(
        REPO,
        "pool repo,repo,1,2,0,365,365,10000000000,50",
        "repo_cash",
        &["ground 12", "10,000,000,000.00"],
    );
    refused(
        BOND,
        "outright,buyer,1,coupons,3,1,1,90,91,4,2,99,0",
        "security_curve",
        &["USD", "TRY", "ground 11"],
    );
    refused(
        BOND,
        "outright,buyer,1,coupons,1,1,1,1,91,4,2,99,0",
        "first_payment_day",
        &["ground 9"],
    );
    refused(
        BOND,
        "outright,buyer,1,coupons,1,1,1,90,367,4,2,99,0",
        "period",
        &["367", "1 to 366"],
    );
    refused(
        BOND,
        "outright,buyer,1,single payment,1,1,1,90,,,2,99,0",
        "coupon",
        &["2.0000% is there", "only coupons have"],
    );
}

#[test]
fn the_right_column_is_blamed() {
    let desk = Desk::with("desk.book");
    let blamed = |values: &[&str]| {
        let run = desk.run(&[&["append", "desk.book"], values].concat());
        assert_eq!(run.status, REFUSED, "{values:?}");
        run.err
    };
    let no_kind = blamed(&[
        "side=buyer",
        "cash_curve=1",
        "security=single payment",
        "security_curve=1",
        "nominal=5",
        "first_payment_day=9",
        "clean_price=99",
    ]);
    assert!(no_kind.contains("column kind: "), "{no_kind}");
    assert!(!no_kind.contains("clean_price"), "{no_kind}");
    let no_security = blamed(&[
        "kind=specified repo",
        "side=repo",
        "phase=1",
        "cash_curve=2",
        "value_day_1=1",
        "value_day_2=8",
        "term=7",
        "repo_cash=5",
        "repo_rate=9",
    ]);
    assert!(no_security.contains("column security: "), "{no_security}");
    assert!(
        no_security.contains(
            "column security: nothing is given: single payment, coupons or indexed coupons"
        ),
        "{no_security}"
    );
    let no_indices = blamed(&[
        "kind=outright",
        "side=buyer",
        "cash_curve=1",
        "security=indexed coupons",
        "security_curve=1",
        "nominal=5",
        "first_payment_day=9",
        "period=9",
        "payments=2",
        "coupon=1",
        "clean_price=99",
    ]);
    assert!(
        no_indices.contains("column settlement_index: "),
        "{no_indices}"
    );
    assert!(no_indices.contains("1 to 10,000,000"), "{no_indices}");
}

#[test]
fn a_full_book_is_said_to_be_full() {
    let desk = Desk::with("empty.book");
    desk.write("full.csv", tool::outrights(1_134));
    desk.run(&["import", "empty.book", "full.csv"]);
    assert_eq!(desk.trades("empty.book"), 1_134);
    let run = desk.append("empty.book", &tool::outright(5_000));
    assert_eq!(run.status, REFUSED);
    assert!(
        run.err.contains("ground 15") && run.err.contains("full with 1,134 trades"),
        "{}",
        run.err
    );
    assert!(!run.err.contains("column"), "{}", run.err);
}

#[test]
fn a_column_is_given_once() {
    let desk = Desk::with("buyer.book");
    let before = desk.read("buyer.book");
    for again in ["nominal=2000", "nominal=1000", "Nominal=1"] {
        let values = [tool::outright(1_000), vec![again.to_owned()]].concat();
        let run = desk.append("buyer.book", &values);
        assert_eq!(run.status, REFUSED);
        assert!(run.err.contains("column nominal: "), "{}", run.err);
    }
    assert_eq!(desk.read("buyer.book"), before);
    assert_eq!(
        desk.run(&["append", "buyer.book", "nominal"]).status,
        MISUSED
    );
}

#[test]
fn every_wrong_line_is_told_at_once() {
    let desk = Desk::with("desk.book");
    let lines = "swap,repo,1,2,1,8,7,500,13\n\
                 pool repo,repo,1,2,1,8,7,600,13\n\
                 pool repo,buyer,1,2,1,8,7,lots,13\n";
    desk.write("trades.csv", format!("{REPO}{lines}"));
    let run = desk.run(&["import", "desk.book", "trades.csv"]);
    assert_eq!(run.status, REFUSED);
    for words in [
        "line 3, column kind",
        "line 5, column side",
        "line 5, column repo_cash",
    ] {
        assert!(run.err.contains(words), "{}", run.err);
    }
    desk.write(
        "trades.csv",
        format!("{REPO}pool repo,repo,1,2,1,8,6,5,1\npool repo,repo,1,9,1,8,7,5,1\n"),
    );
    let run = desk.run(&["import", "desk.book", "trades.csv"]);
    for words in ["line 3, column term", "line 4, column cash_curve"] {
        assert!(run.err.contains(words), "{}", run.err);
    }
    assert_eq!(desk.trades("desk.book"), 11);
}

#[test]
fn column_names_are_looked_at_first() {
    for (text, words) in [
        ("kind,sid\n", "sid"),
        ("\nkind,Kind\n", "line 2"),
        ("", "column names"),
    ] {
        let refusal = import(text);
        assert!(refusal.contains(words), "{refusal}");
    }
}

#[test]
fn a_turkish_spreadsheet_is_read_and_no_number_is_guessed() {
    let desk = Desk::with("desk.book");
    let semicolons =
        "kind;side;phase;cash_curve;value_day_1;value_day_2;term;repo_cash;repo_rate\n\
                      pool repo;repo;1;2;1;8;7;1.234.567,89;13,25\n";
    desk.write("trades.csv", semicolons);
    desk.done(&["import", "desk.book", "trades.csv"]);
    let shown = desk.done(&["show", "desk.book"]);
    assert!(
        shown.contains(
            "trade 11: repo member in a pool repo, phase 1: cash 1,234,567.89 at 13.2500%"
        ),
        "{shown}"
    );
    for rate in ["13.250", "13.25"] {
        desk.write(
            "trades.csv",
            semicolons
                .replace("13,25", rate)
                .replace("567,89", "567,88"),
        );
        let refusal = desk.refused(&["import", "desk.book", "trades.csv"]);
        assert!(
            refusal.contains("column repo_rate: ") && refusal.contains(rate),
            "{refusal}"
        );
    }
    let tabs = semicolons.replace(';', "\t").replace("567,89", "567,87");
    desk.write("trades.csv", tabs.replace("13,25", "13,250"));
    let refusal = desk.refused(&["import", "desk.book", "trades.csv"]);
    assert!(refusal.contains("column repo_rate: "), "{refusal}");
    desk.write("trades.csv", tabs);
    assert_eq!(desk.run(&["import", "desk.book", "trades.csv"]).status, 0);
}
