//! "I keyed the second leg twice."

mod tool;

use tool::{example, Desk, DONE, REFUSED};

/// A pool repo of 100,000.00 at 14.1% for 7 days from day 0, as append takes it.
const REPO: [&str; 9] = [
    "kind=pool repo",
    "side=repo",
    "phase=1",
    "cash_curve=2",
    "value_day_1=0",
    "value_day_2=7",
    "term=7",
    "repo_cash=100000",
    "repo_rate=14.1",
];

/// With some of its columns otherwise.
fn repo_with(changed: &[&str]) -> Vec<String> {
    tool::changed(&REPO, changed)
}

fn append(desk: &Desk, trade: &[String], more: &[&str]) -> tool::Run {
    let mut arguments = vec!["append".to_owned(), "desk.book".to_owned()];
    arguments.extend(more.iter().map(|word| (*word).to_owned()));
    arguments.extend_from_slice(trade);
    desk.run(&arguments)
}

/// A desk whose book has the repo at position 11.
fn with_repo() -> Desk {
    let desk = Desk::with("desk.book");
    let run = append(&desk, &repo_with(&[]), &[]);
    assert_eq!((run.status, run.err.as_str()), (DONE, ""));
    desk
}

#[test]
fn what_looks_keyed_twice_is_refused_unless_it_is_meant() {
    let settled = [
        "kind=pool repo",
        "phase=3",
        "value_day_1=0",
        "security=single payment",
        "security_curve=1",
        "nominal=110000",
        "first_payment_day=90",
    ];
    // 100,000.00 at 14.1% for 7 days: interest 270.41, withholding 40.56
    let taken_back = [
        "side=reverse repo",
        "value_day_1=7",
        "value_day_2=8",
        "term=1",
        "repo_cash=100229.85",
        "repo_rate=13",
    ];
    for (changed, words) in [
        (
            &[][..],
            "the new trade is the same as trade 11, byte for byte",
        ),
        (&settled, "the new trade is the second leg of trade 11"),
        (
            &taken_back,
            "the new trade begins with the second leg of trade 11",
        ),
    ] {
        let desk = with_repo();
        let before = desk.read("desk.book");
        let trade = repo_with(changed);
        let run = append(&desk, &trade, &[]);
        assert_eq!(
            (run.status, run.out.as_str()),
            (REFUSED, ""),
            "{words}: {}",
            run.err
        );
        assert!(run.err.contains(words), "{}", run.err);
        assert!(
            run.err
                .contains("  trade 11: repo member in a pool repo, phase 1"),
            "{}",
            run.err
        );
        assert!(run.err.contains("--again"), "{}", run.err);
        assert_eq!(desk.read("desk.book"), before);
        let run = append(&desk, &trade, &["--again"]);
        assert_eq!(run.status, DONE, "{}", run.err);
        assert!(
            run.out.starts_with("desk.book: trade 12 is added: "),
            "{}",
            run.out
        );
        assert_eq!(desk.trades("desk.book"), 13);
    }
}

#[test]
fn the_first_leg_behind_its_settled_one_is_found_too() {
    let desk = Desk::with("desk.book");
    let trade = [
        "kind=specified repo",
        "phase=2",
        "security=single payment",
        "security_curve=1",
        "nominal=110000",
        "first_payment_day=90",
        "value_day_1=0",
    ];
    assert_eq!(append(&desk, &repo_with(&trade), &[]).status, DONE);
    let run = append(&desk, &repo_with(&[]), &[]);
    assert_eq!(run.status, REFUSED);
    assert!(
        run.err
            .contains("trade 11 is the second leg of the new trade"),
        "{}",
        run.err
    );
}

/// Its words are put together of whatever was keyed.
#[test]
fn a_wrong_trade_that_looks_keyed_twice_is_told_as_both() {
    let settled = [
        "phase=3",
        "value_day_1=0",
        "security_curve=1",
        "nominal=110000",
    ];
    let bill = ["security=single payment", "first_payment_day=0"];
    let bond = [
        "security=indexed coupons",
        "first_payment_day=1",
        "period=65535",
        "payments=65535",
        "coupon=0",
        "settlement_index=1",
        "issue_index=0",
    ];
    for (security, wrong, words) in [
        (
            &bill[..],
            "column first_payment_day: 0 is there, 1 to 10,950 is due",
            "110,000.00 paid on day 0",
        ),
        (
            &bond,
            "column period: 65,535 is there, 1 to 366 is due",
            "1 payment inside the term, on day 1, which no longer counts, and 65,534 after it",
        ),
    ] {
        let desk = with_repo();
        let run = append(&desk, &repo_with(&[&settled, security].concat()), &[]);
        assert_eq!(run.status, REFUSED);
        let lines: Vec<&str> = run.err.lines().collect();
        assert_eq!(lines.len(), 5, "{}", run.err);
        // the engine's ground first
        assert!(lines[0].contains(wrong), "{}", run.err);
        let double = "seddolki: the new trade is the second leg of trade 11";
        assert!(lines[1].starts_with(double), "{}", run.err);
        assert!(lines[3].ends_with(words), "{}", run.err);
        assert_eq!(desk.trades("desk.book"), 12);
    }
}

#[test]
fn one_field_and_the_opposite_side_are_told_and_taken() {
    for (changed, words) in [
        (
            ["repo_cash=200000"],
            "differs from trade 11 in one field only: repo cash",
        ),
        (["side=reverse repo"], "is the opposite side of trade 11"),
    ] {
        let desk = with_repo();
        let run = append(&desk, &repo_with(&changed), &[]);
        assert_eq!(run.status, DONE);
        assert!(run.out.starts_with("desk.book: trade 12 is added: "));
        assert!(run.err.contains(words), "{}", run.err);
        assert_eq!(desk.trades("desk.book"), 13);
    }
}

/// The same repo of a bond that pays 2,750.00 on its value day 2 and 30 days
/// later, as append takes it.
const AGAINST_BOND: [&str; 9] = [
    "kind=specified repo",
    "security=coupons",
    "security_curve=1",
    "nominal=110000",
    "first_payment_day=7",
    "period=30",
    "payments=4",
    "coupon=2.5",
    "value_day_1=0",
];

/// With some of its columns otherwise.
fn bond_repo(changed: &[&str]) -> Vec<String> {
    tool::changed(&repo_with(&AGAINST_BOND), changed)
}

/// A desk whose book has that repo at position 11.
fn with_bond_repo() -> Desk {
    let desk = Desk::with("desk.book");
    let run = append(&desk, &bond_repo(&[]), &[]);
    assert_eq!((run.status, run.err.as_str()), (DONE, ""));
    desk
}

#[test]
fn a_coupon_inside_the_term_is_no_second_leg() {
    let desk = with_bond_repo();
    let next = ["value_day_1=7", "value_day_2=14", "first_payment_day=37"];
    let other = ["side=reverse repo", "kind=pool repo", "phase=2"];
    for changed in [
        // rolled on, with what the second leg takes, and with its cash alone
        [&next[..], &["payments=3", "repo_cash=100229.85"]].concat(),
        [&next[..], &["payments=3", "repo_rate=14.2"]].concat(),
        // the coupon lent on, on the day on which it is paid
        [&next[..], &other, &["repo_cash=2750", "repo_rate=13"]].concat(),
        // a settled repo of the other side that is paid as much on that day
        vec![
            "phase=2",
            "value_day_1=",
            "side=reverse repo",
            "repo_cash=2750",
            "repo_rate=0",
        ],
    ] {
        let run = append(&desk, &bond_repo(&changed), &[]);
        assert_eq!((run.status, run.err.as_str()), (DONE, ""), "{changed:?}");
    }
    let text = desk.done(&["check", "--doubles", "desk.book"]);
    assert!(
        text.ends_with("desk.book: no trade looks keyed twice\n"),
        "{text}"
    );
}

#[test]
fn a_repo_with_coupons_inside_its_term_is_found_keyed_twice() {
    let settled = ["phase=2", "value_day_1="];
    let behind = ["first_payment_day=37", "payments=3"];
    let taken_back = [
        "side=reverse repo",
        "value_day_1=7",
        "value_day_2=8",
        "term=1",
        "first_payment_day=8",
        "repo_cash=100229.85",
    ];
    let second_leg = "is the second leg of trade 11: same side, curves, cash 100,000.00, rate, \
                      term and value day 2";
    for (changed, words) in [
        (vec![], "is the same as trade 11, byte for byte"),
        (settled.to_vec(), second_leg),
        ([&settled[..], &behind].concat(), second_leg),
        (
            taken_back.to_vec(),
            "begins with the second leg of trade 11: other side, cash 100,229.85 on day 7",
        ),
    ] {
        let desk = with_bond_repo();
        let run = append(&desk, &bond_repo(&changed), &[]);
        assert_eq!(run.status, REFUSED, "{words}: {}", run.err);
        let lines: Vec<&str> = run.err.lines().collect();
        assert_eq!(lines[0], format!("seddolki: the new trade {words}"));
        let due = ", 1 payment inside the term, on day 7, and 3 after it";
        assert!(lines[1].starts_with("seddolki:   trade 11: repo member"));
        assert!(lines[1].ends_with(due), "{}", run.err);
        assert_eq!(desk.trades("desk.book"), 12);
        assert_eq!(
            append(&desk, &bond_repo(&changed), &["--again"]).status,
            DONE
        );
    }
}

#[test]
fn a_file_is_not_imported_twice() {
    let desk = Desk::with("empty.book");
    desk.done(&["import", "empty.book", &example("buyer.csv")]);
    let before = desk.read("empty.book");
    let run = desk.run(&["import", "empty.book", &example("buyer.csv")]);
    assert_eq!(run.status, REFUSED);
    assert!(
        run.err
            .contains("imported already: all its trades stand in empty.book, at position 0"),
        "{}",
        run.err
    );
    assert_eq!(desk.read("empty.book"), before);
    let run = desk.run(&["import", "empty.book", &example("buyer.csv"), "--again"]);
    assert_eq!(run.status, DONE);
    assert_eq!(desk.trades("empty.book"), 2);
}

#[test]
fn doubles_within_a_file_are_told_by_line_and_at_once() {
    let desk = Desk::with("desk.book");
    let line = |cash: u32| format!("pool repo,repo,1,2,1,8,7,{cash},13.2\n");
    let head = "kind,side,phase,cash_curve,value_day_1,value_day_2,term,repo_cash,repo_rate\n";
    let text = [head.to_owned(), line(5), line(6), line(5), line(6)].concat();
    desk.write("trades.csv", text);
    let run = desk.run(&["import", "desk.book", "trades.csv"]);
    assert_eq!(run.status, REFUSED);
    for words in [
        "line 4 of trades.csv is the same as line 2 of trades.csv",
        "line 5 of trades.csv is the same as line 3 of trades.csv",
    ] {
        assert!(run.err.contains(words), "{}", run.err);
    }
    assert_eq!(desk.trades("desk.book"), 11);
    // beside a line that is wrong
    let wrong = line(7).replace(",8,", ",9,");
    desk.write(
        "trades.csv",
        [head.to_owned(), line(5), line(5), wrong].concat(),
    );
    let run = desk.run(&["import", "desk.book", "trades.csv"]);
    assert_eq!(run.status, REFUSED);
    for words in [
        "line 4, column term: ",
        "line 3 of trades.csv is the same as line 2",
    ] {
        assert!(run.err.contains(words), "{}", run.err);
    }
}

#[test]
fn an_amended_trade_is_looked_at_too() {
    let desk = with_repo();
    assert_eq!(
        append(&desk, &repo_with(&["repo_cash=5"]), &[]).status,
        DONE
    );
    let run = desk.run(&["amend", "desk.book", "12", "repo_cash=100000"]);
    assert_eq!(run.status, REFUSED, "{}", run.err);
    assert!(run.err.contains("is the same as trade 11"), "{}", run.err);
    let run = desk.run(&["amend", "--again", "desk.book", "12", "repo_cash=100000"]);
    assert_eq!(run.status, DONE);
}

#[test]
fn a_whole_book_is_searched() {
    let desk = with_repo();
    assert_eq!(append(&desk, &repo_with(&[]), &["--again"]).status, DONE);
    let text = desk.done(&["check", "--doubles", "desk.book"]);
    assert!(
        text.contains("trade 12 is the same as trade 11, byte for byte"),
        "{text}"
    );
    let csv = desk.done(&["check", "--doubles", "--csv", "desk.book"]);
    assert!(
        csv.contains("doubles,desk.book,") && csv.contains("same"),
        "{csv}"
    );
    let clean = Desk::with("desk.book").done(&["check", "--doubles", "desk.book"]);
    assert!(clean.contains("no trade looks keyed twice"), "{clean}");
}
