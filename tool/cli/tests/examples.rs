//! The tool on the examples.

mod tool;

use seddolki_books::{buyer, seller};
use tool::{example, for_day, Desk, DAY};

#[test]
fn the_example_books_are_those_of_document_01() {
    assert_eq!(std::fs::read(example("buyer.book")).unwrap(), buyer());
    assert_eq!(std::fs::read(example("seller.book")).unwrap(), seller());
}

#[test]
fn books_are_made_from_curves_and_trades() {
    for (day, curves, trades, book) in [
        ("2000-01-01", "curve.txt", "buyer.csv", "buyer.book"),
        ("2000-01-01", "curve.txt", "seller.csv", "seller.book"),
        (DAY, "desk-curves.txt", "desk-trades.csv", "desk.book"),
        (DAY, "repo-curves.txt", "repo.csv", "repo.book"),
    ] {
        let desk = Desk::new();
        desk.done(&["new", "--day", day, book, &example(curves)]);
        desk.done(&["import", "--day", day, book, &example(trades)]);
        assert_eq!(desk.read(book), std::fs::read(example(book)).unwrap());
        assert_eq!(desk.files(), [book]);
    }
}

#[test]
fn a_buyers_margin() {
    let desk = Desk::with("buyer.book");
    let text = desk.done(&["margin", "buyer.book"]);
    let words: Vec<Vec<&str>> = text
        .lines()
        .map(|line| line.split_whitespace().collect())
        .collect();
    assert_eq!(
        text.lines().next(),
        Some("account 7, valuation day 16 November 2026")
    );
    assert_eq!(
        words[3],
        ["1", "TRY", "100.00", "300.00", "2", "+3.00", "0.00", "0.00", "0.01"]
    );
    assert_eq!(words[6], ["TRY", "300.00", "100.00", "-200.00"]);
}

#[test]
fn a_sellers_margin() {
    let desk = Desk::with("seller.book");
    let text = desk.done(&["margin", "seller.book"]);
    let words: Vec<&str> = text.split_whitespace().collect();
    let figures = ["-100.00", "200.00", "0", "-3.00", "0.00", "0.00", "0.01"];
    assert!(words.windows(7).any(|run| run == figures), "{text}");
    assert!(
        words.ends_with(&["TRY", "200.00", "-100.00", "-300.00"]),
        "{text}"
    );
}

#[test]
fn a_book_is_checked_and_shown() {
    let desk = Desk::with("buyer.book");
    assert_eq!(
        desk.done(&["check", "buyer.book"]),
        "buyer.book: accepted, account 7, valuation day 16 November 2026, 1 curve, 1 trade\n"
    );
    let text = desk.done(&["show", "buyer.book"]);
    assert!(
        text.ends_with(
            "trade 0: buys 1,000.00 paid on day 365, at 70.0000% clean and 0.0000% accrued, \
             value day 0\n\
             day  curve     amount  flow\n\
             \x20 0      1    -700.00  settlement cash\n\
             365      1  +1,000.00  payment of the security\n"
        ),
        "{text}"
    );
}

#[test]
fn every_form_of_trade_is_shown() {
    let desk = Desk::with("desk.book");
    let text = desk.done(&["show", "desk.book"]);
    for line in [
        "trade 2: buys 1,000,000.00 nominal with 10 coupons of 1.7500% each 182 days from day 60, \
         index 318,402 over 225,117",
        "trade 3: repo member in a pool repo, phase 1: cash 3,000,000.00 at 13.2000% for 7 days, \
         from day 1 to day 8\n",
        "trade 8: reverse-repo member in a specified repo, phase 2: cash 1,100,000.00",
        "-3,006,455.34  repo cash and interest less withholding, second leg\n",
        "no cash flows\n",
    ] {
        assert!(text.contains(line), "{line}");
    }
}

#[test]
fn a_trade_is_appended_and_struck() {
    let desk = Desk::with("buyer.book");
    let opposite = [
        "append",
        "buyer.book",
        "kind=outright",
        "side=seller",
        "cash_curve=1",
        "security=single payment",
        "security_curve=1",
        "nominal=1,000.00",
        "value_day_1=0",
        "first_payment_day=365",
        "clean_price=70",
        "accrued=0",
    ];
    let run = desk.run(&opposite);
    assert_eq!(
        (run.status, run.out.as_str()),
        (0, "buyer.book: trade 1 is added: sells 1,000.00 paid on day 365, at 70.0000% clean and 0.0000% accrued, value day 0\n")
    );
    assert!(
        run.err
            .contains("the new trade is the opposite side of trade 0"),
        "{}",
        run.err
    );
    let text = desk.done(&["margin", "buyer.book"]);
    let words: Vec<&str> = text.split_whitespace().collect();
    assert!(words.ends_with(&["TRY", "0.00", "0.00", "0.00"]), "{text}");
    let struck = desk.done(&["strike", "buyer.book", "0"]);
    assert!(struck.starts_with("buyer.book: trade 0 is struck: buys 1,000.00"));
    assert_eq!(desk.read("buyer.book"), for_day(&seller(), DAY));
}

#[test]
fn a_trade_is_amended_in_its_place() {
    let desk = Desk::with("desk.book");
    let before = desk.done(&["export", "desk.book"]);
    let text = desk.done(&[
        "amend",
        "desk.book",
        "1",
        "clean_price=91.25",
        "value_day_1=3",
    ]);
    assert!(
        text.starts_with("desk.book: trade 1 is now: sells 2,500,000.00"),
        "{text}"
    );
    let behind = desk.done(&["export", "desk.book"]);
    let changed: Vec<usize> = (0..)
        .zip(before.lines().zip(behind.lines()))
        .filter(|(_, (a, b))| a != b)
        .map(|(i, _)| i)
        .collect();
    assert_eq!(changed, [2]);
    let diff = desk.done(&["diff", "desk.book", &example("desk.book"), "--csv"]);
    let rows: Vec<&str> = diff.lines().skip(1).collect();
    assert_eq!(
        rows,
        [
            "trade amended,1,value_day_1,3,2",
            "trade amended,1,clean_price,91.2500,91.2000"
        ]
    );
    let reason = desk.refused(&["amend", "desk.book", "11", "term=7"]);
    assert!(reason.contains("ground 14"), "{reason}");
    let reason = desk.refused(&["amend", "desk.book", "3", "term=6"]);
    assert!(
        reason.contains("column term: 6 is there, 7 is due"),
        "{reason}"
    );
}

#[test]
fn two_books_are_told_apart() {
    let desk = Desk::with("desk.book");
    std::fs::copy(desk.path("desk.book"), desk.path("other.book")).unwrap();
    assert_eq!(
        desk.done(&["diff", "desk.book", "other.book"]),
        "desk.book and other.book hold the same\n"
    );
    desk.done(&["strike", "other.book", "4"]);
    desk.run(&[
        "append",
        "other.book",
        "kind=pool repo",
        "side=repo",
        "phase=1",
        "cash_curve=2",
        "value_day_1=5",
        "value_day_2=6",
        "term=1",
        "repo_cash=77",
        "repo_rate=9",
    ]);
    let diff = desk.done(&["diff", "desk.book", "other.book", "--csv"]);
    let rows: Vec<&str> = diff.lines().skip(1).collect();
    assert_eq!(rows.len(), 2, "{diff}");
    assert!(
        rows[0].starts_with("trade struck,4,,\"reverse-repo member in a pool repo")
            && rows[0].ends_with(','),
        "{diff}"
    );
    assert!(
        rows[1].starts_with("trade added,10,,,\"repo member in a pool repo, phase 1: cash 77.00"),
        "{diff}"
    );
    desk.copy("buyer.book", "buyer.book");
    let diff = desk.done(&["diff", "desk.book", "buyer.book"]);
    assert!(
        diff.contains("account") && diff.contains("rate of day 365"),
        "{diff}"
    );
}

#[test]
fn flows_are_netted_by_day_and_curve() {
    let desk = Desk::with("desk.book");
    let text = desk.done(&["flows", "desk.book", "--curve", "2", "--csv"]);
    // on day 1: 3,000,000.00 of trade 3 in; trade 4 takes its second leg in; trade 0 and 2 stand on curve 1
    let day: Vec<&str> = text
        .lines()
        .filter(|line| line.starts_with("2026-11-16,2,TRY,1,"))
        .collect();
    assert_eq!(
        day,
        ["2026-11-16,2,TRY,1,5000612.47,0.00,5000612.47,\"first leg, second leg\""]
    );
    let total = |text: &str| -> i64 {
        let net = text
            .lines()
            .skip(1)
            .map(|line| line.split(',').nth(6).unwrap().replace('.', ""));
        net.map(|net| net.parse::<i64>().unwrap()).sum()
    };
    let all = desk.done(&["flows", "desk.book", "--csv"]);
    let each = ["1", "2", "3"]
        .map(|id| total(&desk.done(&["flows", "desk.book", "--csv", "--curve", id])));
    assert_eq!(total(&all), each.iter().sum::<i64>());
    let reason = desk.refused(&["flows", "desk.book", "--curve", "4"]);
    assert!(reason.contains("its curves are 1 to 3"), "{reason}");
}

#[test]
fn losses_are_those_of_the_margin() {
    let desk = Desk::with("desk.book");
    let text = desk.done(&["losses", "desk.book", "--csv"]);
    let worst: Vec<&str> = text
        .lines()
        .skip(1)
        .filter(|line| line.ends_with(",true"))
        .collect();
    assert_eq!((text.lines().count(), worst.len()), (1 + 343 + 7 + 21, 3));
    let margin = desk.done(&["margin", "desk.book", "--csv"]);
    for (line, worst) in margin.lines().skip(1).zip(worst) {
        let (figures, worst): (Vec<&str>, Vec<&str>) =
            (line.split(',').collect(), worst.split(',').collect());
        assert_eq!(figures[3..6], worst[..3]);
        assert_eq!((figures[7], figures[8]), (worst[7], worst[3]));
    }
    // the trades of a curve add up to its figures, which stand in a table of their own
    let arguments = ["losses", "--trades", "desk.book", "--curve", "1", "--json"];
    let tables: serde_json::Value = serde_json::from_str(&desk.done(&arguments)).unwrap();
    let cents = |value: &serde_json::Value| -> i64 {
        let text = value.as_str().unwrap().replace('.', "");
        text.parse().unwrap()
    };
    let trades = tables["trades"].as_array().unwrap();
    assert!(trades.len() > 3);
    for figure in ["base", "loss"] {
        let sum: i64 = trades.iter().map(|trade| cents(&trade[figure])).sum();
        assert_eq!(sum, cents(&tables["curves"][0][figure]));
    }
}

#[test]
fn grounds_are_explained() {
    let desk = Desk::with("buyer.book");
    for number in 1..=19 {
        let text = desk.done(&["explain", &number.to_string()]);
        assert!(text.lines().count() >= 2, "{text}");
    }
    assert!(desk.done(&["explain", "9"]).contains("730"));
    assert_eq!(desk.run(&["explain", "20"]).status, tool::MISUSED);
    assert_eq!(desk.run(&["explain", "0"]).status, tool::MISUSED);
    assert!(desk
        .done(&["explain", "9", "buyer.book"])
        .contains("buyer.book: accepted"));
}

#[test]
fn a_refused_book_is_told_with_place_field_and_limit_by_every_command() {
    let desk = Desk::with("buyer.book");
    let mut bytes = desk.read("buyer.book");
    // the trade's first payment day, in block 2, and its check
    bytes[2 * 512 + 4 + 12] = 0;
    bytes[2 * 512 + 4 + 13] = 0;
    seddolki_format::block::seal(&mut bytes[2 * 512..]);
    desk.write("bad.book", &bytes);
    desk.write("trades.csv", "kind,side\n");
    let mut runs: Vec<tool::Run> = [
        &["check", "bad.book"][..],
        &["show", "bad.book"],
        &["margin", "bad.book"],
        &["flows", "bad.book"],
        &["losses", "bad.book"],
        &["export", "bad.book"],
        &["diff", "bad.book", "buyer.book"],
        &["plot", "bad.book", "1", "curve.svg"],
        &["strike", "bad.book", "0"],
        &["amend", "bad.book", "0", "nominal=5"],
        &["import", "bad.book", "trades.csv"],
        &["curves", "bad.book", &example("curve.txt")],
    ]
    .map(|arguments| desk.run(arguments))
    .into();
    runs.push(desk.append("bad.book", &tool::outright(5)));
    let mut lengthen = tool::LENGTHEN;
    lengthen[1] = "bad.book";
    runs.push(desk.run(&lengthen));
    runs.push(desk.run(&[&lengthen[..], &["--dry-run"]].concat()));
    for run in runs {
        assert_eq!(run.status, tool::REFUSED, "{run:?}");
        assert!(
            run.err.contains(": refused by ground 9 in block 2"),
            "{run:?}"
        );
        assert!(
            run.err.contains(
                "bad.book: trade 0 (block 2, record 1 of its 1), field first_payment_day: "
            ),
            "{}",
            run.err
        );
    }
    assert_eq!(desk.read("bad.book"), bytes);
    let text = desk.done(&["explain", "9", "bad.book"]);
    assert!(text.contains("refused by ground 9 in block 2"), "{text}");
    assert_eq!(desk.files(), ["bad.book", "buyer.book", "trades.csv"]);
}
