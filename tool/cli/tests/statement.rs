//! The account statement: the engine's page, printed or in a file.

mod tool;

use seddolki::{Book, Record};
use seddolki_text::a_trade_of;
use serde_json::Value;
use tool::{example, Desk, DONE, FAILED, MISUSED, REFUSED};

/// Of examples/buyer.book.
const BUYER: [&str; 4] = [
    "account 7                                                                       ",
    "0 1 1 365                                                                1000.00",
    "1 2 TRY                       100.00                300.00                  0.01",
    "TRY                           300.00                100.00               -200.00",
];

/// Of the book that the files to start from make.
const STARTED: [&str; 12] = [
    "account 1001                                                                    ",
    "0 1 1 1394                                                            5000000.00",
    "1 1 2 274                                                             2500000.00",
    "2 1 1 1698                                                            1000000.00",
    "3 2 1 8                                                                     0.00",
    "4 2 2 200                                                             2200000.00",
    "5 2 1 788                                                             1500000.00",
    "6 3 2 1394                                                            4000000.00",
    "7 3 1 274                                                             1200000.00",
    "1 104 TRY                 2814245.85             703535.62                  0.28",
    "2 6 TRY                  -2562262.26               5711.33                  0.07",
    "TRY                        709246.95             251983.59            -457263.36",
];

fn page(lines: &[&str]) -> String {
    lines.iter().map(|line| format!("{line}\n")).collect()
}

#[test]
fn the_page_of_an_example_is_printed_as_it_is() {
    let book = example("buyer.book");
    let text = Desk::new().done(&["statement", "--day", "2000-01-01", &book]);
    assert_eq!(text, page(&BUYER));
}

#[test]
fn the_page_of_the_files_to_start_from_is_printed_as_it_is() {
    let text = Desk::started().done(&["statement", "desk.book"]);
    assert_eq!(text, page(&STARTED));
}

fn words(line: &str) -> Vec<&str> {
    line.split_whitespace().collect()
}

fn day(trade: &Record) -> u64 {
    if trade.has_security() {
        trade.last_payment_day()
    } else {
        trade.value_day_2.into()
    }
}

/// A line of a trade as the help describes it.
fn of_trade((position, trade): (usize, &Record)) -> Vec<String> {
    let Record { kind, side, .. } = *trade;
    let nominal = format!("{}.{:02}", trade.nominal / 100, trade.nominal % 100);
    let numbers = [position as u64, kind.into(), side.into(), day(trade)];
    let numbers = numbers.iter().map(u64::to_string);
    numbers.chain([nominal]).collect()
}

/// The cells of a table's rows.
fn cells(table: &Value, columns: &[&str]) -> Vec<Vec<String>> {
    let cell = |value: &Value| value.as_str().map_or(value.to_string(), str::to_owned);
    let row = |row: &Value| columns.iter().map(|name| cell(&row[name])).collect();
    table.as_array().unwrap().iter().map(row).collect()
}

#[test]
fn every_line_has_what_the_trades_and_the_margin_have() {
    for name in ["desk.book", "repo.book", "empty.book"] {
        let desk = Desk::with(name);
        let book = Book::from_bytes(desk.read(name));
        let trades: Vec<Record> = book.records().unwrap().collect();
        let margin = desk.tables(&["margin", name]);
        let account = margin["curves"][0]["account"].to_string();
        let mut due = vec![vec!["account".to_owned(), account]];
        due.extend(trades.iter().enumerate().map(of_trade));
        let curve = [
            "curve",
            "scenario",
            "currency",
            "base",
            "worst_loss",
            "tolerance",
        ];
        due.extend(cells(&margin["curves"], &curve));
        let currency = ["currency", "initial", "variation", "total"];
        due.extend(cells(&margin["currencies"], &currency));
        let text = desk.done(&["statement", name]);
        assert_eq!(text.lines().map(words).collect::<Vec<_>>(), due, "{name}");
        assert!(text.lines().all(|line| line.len() == 80), "{text}");
    }
}

#[test]
fn the_help_says_what_the_numbers_of_kinds_and_sides_mean() {
    let desk = Desk::started();
    let help = desk.done(&["statement", "--help"]).replace('\n', " ");
    let trades = desk.tables(&["show", "desk.book"])["trades"].clone();
    let (_, sides) = help.split_once(" a side ").unwrap();
    let sides: Vec<&str> = sides.split('.').next().unwrap().split(" and ").collect();
    let book = Book::from_bytes(desk.read("desk.book"));
    let named = cells(&trades, &["kind", "side"]);
    for (trade, named) in book.records().unwrap().zip(named) {
        let kind = a_trade_of(trade.kind).unwrap();
        assert!(kind.ends_with(&named[0]), "{kind}");
        let due = format!("{} for {kind}", trade.kind);
        assert!(help.contains(&due), "{due}");
        let side = sides[usize::from(trade.side) - 1].replace('-', " ");
        let outright = format!("{} for a {} or", trade.side, named[1]);
        let repo = format!(" or {} member", named[1]);
        assert!(
            side.starts_with(&outright) || side.ends_with(&repo),
            "{side}"
        );
    }
}

#[test]
fn a_file_gets_the_page_and_nothing_else() {
    let desk = Desk::with("buyer.book");
    let told = desk.done(&["statement", "buyer.book", "--to", "page.txt"]);
    let due = "page.txt: account 7, valuation day 16 November 2026\n";
    assert_eq!(told, due);
    assert_eq!(desk.read("page.txt"), page(&BUYER).as_bytes());
    assert_eq!(desk.files(), ["buyer.book", "page.txt"]);
    desk.write("page.txt", "my notes");
    let reason = desk.ended(FAILED, &["statement", "buyer.book", "--to", "page.txt"]);
    assert_eq!(reason, "page.txt: exists already; --force writes over it");
    assert_eq!(desk.read("page.txt"), b"my notes");
}

#[test]
fn a_dash_is_a_standard_stream() {
    let desk = Desk::with("buyer.book");
    let run = desk.shell("\"$0\" statement --day $DAY - --to - < buyer.book");
    assert_eq!(
        (run.status, run.out, run.err),
        (DONE, page(&BUYER), String::new())
    );
    assert_eq!(desk.files(), ["buyer.book"]);
}

#[test]
fn a_book_is_refused_as_by_margin() {
    let desk = Desk::with("buyer.book");
    desk.write("zeros.book", [0; 1024]);
    desk.write("short.book", [0; 511]);
    for (book, status) in [
        ("zeros.book", REFUSED),
        ("short.book", REFUSED),
        (&example("buyer.book"), REFUSED),
        ("no.book", FAILED),
        (".", FAILED),
    ] {
        let reason = desk.ended(status, &["statement", book, "--to", "page.txt"]);
        assert_eq!(reason, desk.ended(status, &["margin", book]));
    }
    assert_eq!(desk.files(), ["buyer.book", "short.book", "zeros.book"]);
}

#[test]
fn one_book_is_taken_and_no_form_of_tables() {
    let desk = Desk::with("buyer.book");
    desk.copy("seller.book", "seller.book");
    for more in ["seller.book", "--json", "--csv", "--semicolon"] {
        let run = desk.run(&["statement", "buyer.book", more]);
        assert_eq!((run.status, run.out.as_str()), (MISUSED, ""), "{more}");
        assert!(run.err.contains(more), "{}", run.err);
    }
    let before = desk.read("seller.book");
    desk.ended(FAILED, &["statement", "buyer.book", "--to", "seller.book"]);
    assert_eq!(desk.read("seller.book"), before);
}
