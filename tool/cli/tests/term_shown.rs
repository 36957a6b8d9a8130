//! What is shown of repos whose security pays inside the term.

mod tool;

use serde_json::Value;
use tool::term_repo::{desk, with, BILL, ENDS, POOL, SETTLED, SETTLED_POOL};
use tool::{changed, example, Desk, DONE};

/// What show prints of the book's one trade, behind its first sentence.
fn shown(desk: &Desk) -> String {
    let text = desk.done(&["show", "empty.book"]);
    let (_, trade) = text.split_once("\ntrade 0: ").unwrap();
    trade.split_once('\n').unwrap().1.to_owned()
}

#[test]
fn show_tells_of_them_on_a_line_and_marks_their_flows() {
    let text = desk(&[]).done(&["show", "empty.book"]);
    let due = "\ntrade 0: repo member in a specified repo, phase 1: cash 1,000.00 at 0.0000% for \
               730 days, from day 0 to day 730, against 1,000.00 nominal with 3 coupons of \
               10.0000% each 365 days from day 365\n\
               2 payments inside the term, from day 365 to day 730, and 1 after it\n\
               day  curve     amount  flow\n\
               \x20 0      1  +1,000.00  repo cash, first leg\n\
               365      1    -100.00  payment of the security inside the term\n\
               730      1  -1,000.00  repo cash and interest less withholding, second leg\n\
               730      1    -100.00  payment of the security inside the term\n";
    assert!(text.ends_with(due), "{text}");
    assert_eq!(shown(&desk(&[&POOL])), shown(&desk(&[])));
}

/// The amounts of each day, by the words of their flows.
fn flows(desk: &Desk) -> Vec<(u64, String, String)> {
    let tables = desk.tables(&["show", "empty.book"]);
    let rows = tables["flows"].as_array().unwrap().iter();
    let text = |value: &Value| value.as_str().unwrap().to_owned();
    rows.map(|row| {
        (
            row["day"].as_u64().unwrap(),
            text(&row["amount"]),
            text(&row["flow"]),
        )
    })
    .collect()
}

#[test]
fn they_come_in_for_the_other_side() {
    for kind in [&[][..], &POOL] {
        let [repo, reverse] =
            ["side=repo", "side=reverse repo"].map(|side| flows(&desk(&[kind, &[side]])));
        let amounts = |flows: &[(u64, String, String)]| -> Vec<String> {
            flows.iter().map(|flow| flow.1.clone()).collect()
        };
        assert_eq!(
            amounts(&repo),
            ["1000.00", "-100.00", "-1000.00", "-100.00"]
        );
        assert_eq!(
            amounts(&reverse),
            ["-1000.00", "100.00", "1000.00", "100.00"]
        );
        for (one, other) in repo.iter().zip(&reverse) {
            assert_eq!((one.0, &one.2), (other.0, &other.2));
        }
    }
}

#[test]
fn the_line_says_how_many_when_and_what_remains() {
    for (changes, line) in [
        (
            &["value_day_2=729", "term=729"][..],
            "1 payment inside the term, on day 365, and 2 after it\n",
        ),
        (
            &ENDS,
            "2 payments inside the term, from day 365 to day 730, and none after it\n",
        ),
        (
            &BILL,
            "1 payment inside the term, on day 365, and none after it\n",
        ),
        (
            &["first_payment_day=1", "period=1", "payments=120"],
            "120 payments inside the term, from day 1 to day 120, and none after it\n",
        ),
        (
            &[
                "value_day_1=1200",
                "value_day_2=1201",
                "term=1",
                "first_payment_day=1201",
            ],
            "1 payment inside the term, on day 1,201, and 2 after it\n",
        ),
        // none inside
        (&["first_payment_day=731"], "day  curve "),
        (&["value_day_2=364", "term=364"], "day  curve "),
    ] {
        let text = shown(&desk(&[changes]));
        assert!(text.starts_with(line), "{text}\n{line}");
    }
}

/// Of the payments up to value day 2 none is a flow, those later are.
#[test]
fn once_the_first_leg_has_settled_they_no_longer_count() {
    let second = "730      1  -1,000.00  repo cash and interest less withholding, second leg\n";
    let later = "1,095      1  +1,100.00  payment of the security\n";
    for settled in [&SETTLED[..], &SETTLED_POOL] {
        let due = format!(
            "2 payments inside the term, from day 365 to day 730, which no longer count, \
             and 1 after it\n\
             \x20 day  curve     amount  flow\n  {second}{later}"
        );
        assert_eq!(shown(&desk(&[settled])), due);
        let ended = format!(
            "2 payments inside the term, from day 365 to day 730, which no longer count, \
             and none after it\n\
             day  curve     amount  flow\n{second}"
        );
        assert_eq!(shown(&desk(&[settled, &ENDS])), ended);
        let bill = "1 payment inside the term, on day 365, which no longer counts, \
                    and none after it\n";
        assert!(shown(&desk(&[settled, &BILL])).starts_with(bill));
    }
    let reverse = desk(&[&SETTLED_POOL, &["side=reverse repo"]]);
    let text = shown(&reverse);
    assert!(text.ends_with(" and 1 after it\nno cash flows\n"), "{text}");
    let reverse = flows(&desk(&[&SETTLED, &["side=reverse repo"]]));
    let flow = |day, amount: &str, words: &str| (day, amount.to_owned(), words.to_owned());
    let words = "repo cash and interest less withholding, second leg";
    assert_eq!(
        reverse,
        [
            flow(730, "1000.00", words),
            flow(1_095, "-1100.00", "payment of the security")
        ]
    );
}

#[test]
fn indexed_coupons_inside_the_term_are_indexed() {
    let indexed = [
        "security=indexed coupons",
        "settlement_index=3",
        "issue_index=2",
    ];
    let text = shown(&desk(&[&indexed]));
    assert!(
        text.contains("\n365      1    -150.00  payment of the security inside the term\n"),
        "{text}"
    );
}

const TERM: [&str; 4] = [
    "payments_in_term",
    "first_in_term",
    "last_in_term",
    "payments_after_term",
];

#[test]
fn the_table_of_trades_has_them_for_programs() {
    let nothing = Value::Null;
    for (changes, due) in [
        (&[][..], [2.into(), 365.into(), 730.into(), 1.into()]),
        (&POOL, [2.into(), 365.into(), 730.into(), 1.into()]),
        (&SETTLED, [2.into(), 365.into(), 730.into(), 1.into()]),
        (&ENDS, [2.into(), 365.into(), 730.into(), 0.into()]),
        (
            &["first_payment_day=731"],
            [0.into(), nothing.clone(), nothing.clone(), 3.into()],
        ),
    ] {
        let tables = desk(&[changes]).tables(&["show", "empty.book"]);
        let found = TERM.map(|name| tables["trades"][0][name].clone());
        assert_eq!(found, due, "{changes:?}");
    }
    // neither an outright nor a repo without security has a term to pay in
    let desk = Desk::with("desk.book");
    let tables = desk.tables(&["show", "desk.book"]);
    for position in [0, 3] {
        for name in TERM {
            assert_eq!(tables["trades"][position].get(name), Some(&nothing));
        }
    }
}

#[test]
fn the_columns_stand_behind_those_of_the_trade_in_csv() {
    let desk = desk(&[]);
    for (form, separator, amounts) in [
        ("--csv", ",", ["0.0000", "1000.00"]),
        ("--semicolon", ";", ["0,0000", "1000,00"]),
    ] {
        let text = desk.done(&["show", "empty.book", form]);
        let behind = ["issue_index"]
            .iter()
            .chain(&TERM)
            .chain(&["amount", "flow"]);
        let names: Vec<&str> = behind.copied().collect();
        let head = text.lines().next().unwrap();
        assert!(head.ends_with(&names.join(separator)), "{head}");
        let line = text.lines().find(|line| line.starts_with("trades"));
        let cells = [
            amounts[1], amounts[0], "", "", "2", "365", "730", "1", "", "",
        ];
        assert!(line.unwrap().ends_with(&cells.join(separator)), "{line:?}");
        let marked = text.matches("payment of the security inside the term");
        assert_eq!(marked.count(), 2, "{text}");
    }
}

#[test]
fn the_ladder_says_what_the_sums_of_a_day_are() {
    let desk = desk(&[]);
    let text = desk.done(&["flows", "empty.book"]);
    assert_eq!(
        text,
        "account 7, valuation day 16 November 2026\n\
         \n\
         curve  currency  day        in       out        net  flows\n\
         \x20   1  TRY         0  1,000.00      0.00  +1,000.00  first leg\n\
         \x20   1  TRY       365      0.00    100.00    -100.00  payment inside the term\n\
         \x20   1  TRY       730      0.00  1,100.00  -1,100.00  second leg, payment inside the term\n"
    );
    // a bond that pays on the same days, and a settled repo against it
    let bond = tool::outright(1_000);
    let coupons = ["security=coupons", "period=365", "payments=3", "coupon=10"];
    let bond = changed(&bond, &[&coupons[..], &["first_payment_day=365"]].concat());
    for trade in [
        bond,
        with(&[&SETTLED, &["value_day_2=365", "side=reverse repo"]]),
    ] {
        let run = desk.append("empty.book", &trade);
        assert_eq!((run.status, run.err.as_str()), (DONE, ""));
    }
    let text = desk.done(&["flows", "empty.book", "--csv"]);
    assert_eq!(
        text,
        "valuation_day,curve,currency,day,in,out,net,flows\n\
         2026-11-16,1,TRY,0,1000.00,990.00,10.00,\"settlement cash, first leg\"\n\
         2026-11-16,1,TRY,365,1100.00,100.00,1000.00,\
         \"second leg, payment inside the term, payment\"\n\
         2026-11-16,1,TRY,730,100.00,1200.00,-1100.00,\
         \"second leg, payment inside the term, payment\"\n\
         2026-11-16,1,TRY,1095,1100.00,1100.00,0.00,payment\n"
    );
    let text = desk.done(&["flows", "empty.book", "--semicolon"]);
    let line = "\n2026-11-16;1;TRY;0;1000,00;990,00;10,00;settlement cash, first leg\n";
    assert!(text.contains(line), "{text}");
    let rows = desk.tables(&["flows", "empty.book"]);
    assert_eq!(
        rows["flows"][1]["flows"],
        "second leg, payment inside the term, payment"
    );
}

/// A text without the ends of its lines.
fn joined(text: &str) -> String {
    text.split_whitespace().collect::<Vec<_>>().join(" ")
}

#[test]
fn the_help_and_the_manual_name_the_columns_and_the_flows() {
    let desk = Desk::new();
    let manual = desk.done(&["man"]);
    let show = desk.done(&["show", "--help"]);
    for name in TERM {
        for text in [&show, &manual] {
            assert!(text.contains(&format!("\n  {name} ")), "{text}");
        }
    }
    let flows = desk.done(&["flows", "--help"]);
    let append = desk.done(&["append", "--help"]);
    for (help, words) in [
        (
            flows,
            "payment inside the term of a repo, which goes out for the repo member and comes in",
        ),
        (
            append,
            "first payment comes after value_day_1, or after the valuation day where the trade does \
             not use that; it may come inside a repo's term.",
        ),
    ] {
        assert!(joined(&help).contains(words), "{help}");
        assert!(joined(&manual).contains(words), "{manual}");
    }
}

#[test]
fn the_readme_shows_such_a_repo_as_it_is_shown() {
    let readme = include_str!("../../README.md");
    let desk = Desk::new();
    desk.done(&["new", "desk.book", &example("desk-curves.txt")]);
    let repo = "cash_curve=2;nominal=100000;value_day_1=2;value_day_2=32;term=30;\
                first_payment_day=20;period=10;payments=4;coupon=2.5;repo_cash=95000;\
                repo_rate=13.2";
    let changes: Vec<&str> = repo.split(';').collect();
    let run = desk.append("desk.book", &with(&[&changes]));
    assert_eq!((run.status, run.err.as_str()), (DONE, ""));
    let text = desk.done(&["show", "desk.book"]);
    let (_, trade) = text.split_once("\ntrade 0: ").unwrap();
    let block = format!("```text\ntrade 0: {trade}```");
    assert!(readme.contains(&block), "{block}");
    // and how it is said of a settled one
    let settled = ["value_day_2=3", "first_payment_day=3", "payments=8"];
    let run = desk.append("desk.book", &with(&[&changes, &settled, &SETTLED]));
    assert_eq!((run.status, run.err.as_str()), (DONE, ""));
    let (_, words) = run.out.trim_end().split_once("from day 3, ").unwrap();
    assert!(readme.contains(&format!("`{words}`")), "{words}");
}
