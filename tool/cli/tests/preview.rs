//! The margin with trades that are not added.

mod tool;

use seddolki_text::decimal::{format, MONEY};
use serde_json::Value;
use std::fs;
use std::os::unix::fs::MetadataExt;
use tool::{
    changed, commands, example, outright, outrights, Desk, Run, DAY_IN_WORDS, DONE, FAILED,
    MISUSED, REFUSED,
};

/// The figures of each table, and the column that names a row.
const TABLES: [(&str, &str, &[&str]); 2] = [
    ("currencies", "currency", &["initial", "total", "variation"]),
    (
        "curves",
        "curve",
        &["base", "worst_loss", "scenario", "tolerance"],
    ),
];

/// The trade of buyer.book with another side and nominal.
fn bill(side: &str, nominal: u32) -> Vec<String> {
    let side = format!("side={side}");
    let other = [&side, "first_payment_day=365", "clean_price=70"];
    changed(&outright(nominal), &other)
}

fn preview(desk: &Desk, book: &str, values: &[String]) -> Run {
    let start = ["preview", book].map(str::to_owned);
    desk.run(&[&start[..], values].concat())
}

fn json(text: &str) -> Value {
    serde_json::from_str(text).unwrap()
}

/// All that can be seen of a file but when it was last read.
fn state(desk: &Desk, name: &str) -> (Vec<u8>, [i64; 4], u64) {
    let found = fs::metadata(desk.path(name)).unwrap();
    let times = [
        found.mtime(),
        found.mtime_nsec(),
        found.ctime(),
        found.ctime_nsec(),
    ];
    (desk.read(name), times, found.ino())
}

/// At 25% a thousand in a year is worth 800, at 100% it is worth 500, and 700
/// is paid for it: 100 that may become -200. Twice as much is added.
#[test]
fn the_margin_before_and_after_and_the_difference() {
    let desk = Desk::with("buyer.book");
    let before = state(&desk, "buyer.book");
    let run = preview(&desk, "buyer.book", &bill("buyer", 2_000));
    assert_eq!(run.status, DONE, "{}", run.err);
    assert_eq!(
        run.out,
        "buyer.book: trade 1 would be added: buys 2,000.00 paid on day 365, at 70.0000% clean \
         and 0.0000% accrued, value day 0; nothing is changed\n\
         \n\
         account 7, valuation day 16 November 2026\n\
         \n\
         \x20              before    after  difference\n\
         TRY\n\
         initial        300.00   900.00     +600.00\n\
         total         -200.00  -600.00     -400.00\n\
         variation      100.00   300.00     +200.00\n\
         \n\
         curve 1, TRY\n\
         base           100.00   300.00     +200.00\n\
         worst loss     300.00   900.00     +600.00\n\
         scenario            2        2\n\
         tolerance        0.01     0.02       +0.01\n"
    );
    assert_eq!(state(&desk, "buyer.book"), before);
    assert_eq!(desk.files(), ["buyer.book"]);
}

fn hundredths(value: &Value) -> i128 {
    value.as_str().unwrap().replace('.', "").parse().unwrap()
}

/// That a preview shows the margins of a book before and after, and by how
/// much they differ.
fn assert_shows(preview: &Value, [before, after]: [&Value; 2]) {
    for (table, key, figures) in TABLES {
        let rows = preview[table].as_array().unwrap();
        assert_eq!(rows.len(), before[table].as_array().unwrap().len());
        for (place, row) in rows.iter().enumerate() {
            let [before, after] = [before, after].map(|margin| &margin[table][place]);
            for name in [key, "account", "valuation_day"] {
                assert_eq!((&row[name], &row[name]), (&before[name], &after[name]));
            }
            for figure in figures {
                let of = |what: &str| &row[format!("{figure}_{what}")];
                let due = [&before[figure], &after[figure]];
                assert_eq!([of("before"), of("after")], due, "{figure}");
                if *figure != "scenario" {
                    let difference = hundredths(due[1]) - hundredths(due[0]);
                    assert_eq!(hundredths(of("difference")), difference, "{figure}");
                }
            }
        }
    }
}

/// The preview of a file of trades, beside the margins before and after they
/// are imported.
fn assert_previews_import(desk: &Desk, trades: &str) -> String {
    let margin = || json(&desk.done(&["margin", "--json", "desk.book"]));
    let before = (state(desk, "desk.book"), margin());
    let arguments = ["preview", "desk.book", "--trades", trades];
    let shown = desk.run(&[&arguments[..], &["--json"]].concat());
    assert_eq!(shown.status, DONE, "{}", shown.err);
    let text = desk.run(&arguments).out;
    assert_eq!(state(desk, "desk.book"), before.0);
    let imported = desk.run(&["import", "desk.book", trades, "--again"]);
    assert_eq!(imported.status, DONE, "{}", imported.err);
    assert_shows(&json(&shown.out), [&before.1, &margin()]);
    desk.write("desk.book", &before.0 .0);
    text
}

/// The first line of the desk's trades, and the others.
fn desk_trades() -> (String, Vec<String>) {
    let text = fs::read_to_string(example("desk-trades.csv")).unwrap();
    let mut lines = text.lines().map(|line| format!("{line}\n"));
    (lines.next().unwrap(), lines.collect())
}

#[test]
fn a_trade_of_every_kind_is_shown_as_if_it_were_added() {
    let (head, trades) = desk_trades();
    let desk = Desk::with("desk.book");
    for trade in &trades {
        desk.write("trades.csv", format!("{head}{trade}"));
        let text = assert_previews_import(&desk, "trades.csv");
        let words = "desk.book: 1 trade would be added, at position 11; nothing is changed\n\n";
        assert!(text.starts_with(words), "{text}");
    }
}

#[test]
fn several_trades_are_shown_together() {
    let (head, trades) = desk_trades();
    let desk = Desk::with("desk.book");
    for count in [0, 2, 11] {
        desk.write("trades.csv", head.clone() + &trades[..count].concat());
        let text = assert_previews_import(&desk, "trades.csv");
        let words = match count {
            0 => "no trade would be added".into(),
            _ => {
                let last = 10 + count;
                format!("{count} trades would be added, at positions 11 to {last}")
            }
        };
        let due = format!(
            "desk.book: {words}; nothing is changed\n\n\
             account 1042, valuation day {DAY_IN_WORDS}\n\n"
        );
        assert!(text.starts_with(&due), "{text}\n{due}");
    }
}

/// That a text has every figure of a preview: a line for each that changes,
/// below its name; the others on one line.
fn assert_tells_all(text: &str, preview: &Value) {
    for (table, _, figures) in TABLES {
        for row in preview[table].as_array().unwrap() {
            let shown = |figure: &str, what: &str| match &row[format!("{figure}_{what}")] {
                Value::Number(scenario) => scenario.to_string(),
                amount => format(hundredths(amount), MONEY),
            };
            let name = match &row["curve"] {
                Value::Null => row["currency"].as_str().unwrap().to_owned(),
                id => format!("curve {id}, {}", row["currency"].as_str().unwrap()),
            };
            let line = |name: &str, cells: &[String]| {
                let words = [&[name.to_owned()], cells].concat().join(" ");
                let mut lines = text
                    .lines()
                    .map(|line| line.split_whitespace().collect::<Vec<_>>().join(" "));
                assert!(
                    lines.any(|line| line.starts_with(&words)),
                    "{words}\n{text}"
                );
            };
            let figure = |figure: &&str| [shown(figure, "before"), shown(figure, "after")];
            if figures.iter().map(figure).all(|[a, b]| a == b) {
                let cells: Vec<String> = figures.iter().map(|name| shown(name, "after")).collect();
                line(&name, &cells);
                continue;
            }
            assert!(text.contains(&format!("\n{name}\n")), "{name}\n{text}");
            for name in figures {
                line(&name.replace('_', " "), &figure(name));
            }
        }
    }
}

#[test]
fn what_stays_is_told_below_what_changes() {
    let (head, trades) = desk_trades();
    let desk = Desk::with("desk.book");
    // a bond in dollars, one in lira, and the side of a repo without flows
    for (trade, changed, kept) in [
        (9, "USD curve 3", "TRY curve 1 curve 2"),
        (0, "TRY curve 1", "USD curve 2 curve 3"),
        (6, "", "TRY USD curve 1 curve 2 curve 3"),
    ] {
        desk.write("trades.csv", format!("{head}{}", trades[trade]));
        let arguments = ["preview", "desk.book", "--trades", "trades.csv"];
        let text = desk.run(&arguments).out;
        let tables = json(&desk.run(&[&arguments[..], &["--json"]].concat()).out);
        assert_tells_all(&text, &tables);
        let (above, below) = text.split_once("\nunchanged").unwrap();
        assert_eq!(above.contains(" before "), !changed.is_empty(), "{text}");
        for (part, names) in [(above, changed), (below, kept)] {
            let own = ["TRY", "USD", "curve 1", "curve 2", "curve 3"];
            let found = own.iter().filter(|name| {
                let mut lines = part.lines();
                lines.any(|line| line.starts_with(*name))
            });
            let found: Vec<&str> = found.copied().collect();
            assert_eq!(found.join(" "), names, "{text}");
        }
    }
}

#[test]
fn a_book_may_come_from_standard_input() {
    let desk = Desk::with("desk.book");
    let trade = "kind=pool_repo side=repo phase=1 cash_curve=2 value_day_1=1 value_day_2=15 \
                 term=14 repo_cash=3000000 repo_rate=13.3";
    let run = desk.shell(&format!("\"$0\" preview --day $DAY - {trade} < desk.book"));
    assert_eq!((run.status, run.err.as_str()), (DONE, ""));
    let named = desk.shell(&format!("\"$0\" preview --day $DAY desk.book {trade}"));
    let words = "standard input: trade 11 would be added: repo member in a pool repo";
    assert!(run.out.starts_with(words), "{}", run.out);
    assert_eq!(run.out.replace("standard input", "desk.book"), named.out);
    let run = desk.shell("\"$0\" preview --day $DAY - kind=swap < desk.book");
    let words = "seddolki: standard input: column kind: swap ";
    assert!(run.err.starts_with(words), "{}", run.err);
    let csv = example("seller.csv");
    let run = desk.shell(&format!(
        "\"$0\" preview --day $DAY desk.book --trades - < '{csv}'"
    ));
    assert_eq!((run.status, run.err.as_str()), (DONE, ""));
}

/// The words of a preview that is refused as the command is that adds.
fn refused_alike(desk: &Desk, preview: &[&str], adding: &[&str], values: &[String]) -> String {
    let before = desk.read(preview[1]);
    let [shown, added] = [preview, adding].map(|start| desk.run(&words(start, values)));
    assert_eq!((shown.status, shown.out.as_str()), (REFUSED, ""));
    assert_eq!((added.status, added.out.as_str()), (REFUSED, ""));
    assert_eq!(shown.err, added.err);
    assert_eq!(desk.read(preview[1]), before);
    shown.err
}

fn refused_as_by_append(desk: &Desk, book: &str, values: &[String]) -> String {
    refused_alike(desk, &["preview", book], &["append", book], values)
}

fn refused_as_by_import(desk: &Desk, book: &str, file: &str) -> String {
    let preview = ["preview", book, "--trades", file];
    refused_alike(desk, &preview, &["import", book, file], &[])
}

fn words(command: &[&str], values: &[String]) -> Vec<String> {
    let command = command.iter().map(|word| (*word).to_owned());
    command.chain(values.iter().cloned()).collect()
}

#[test]
fn a_trade_is_refused_as_by_append() {
    for (value, said) in [
        ("cash_curve=9", "refused by ground 8 in block 2"),
        ("first_payment_day=0", "refused by ground 9 in block 2"),
        ("clean_price=400.0001", "refused by ground 10 in block 2"),
        ("nominal=lots", "column nominal: lots is not a number"),
        ("nominal=", "column nominal: nothing is given"),
        ("term=1", "column term: "),
        ("knd=outright", "there is no column knd: is kind meant?"),
    ] {
        let desk = Desk::with("buyer.book");
        let values = changed(&bill("seller", 5), &[value]);
        let err = refused_as_by_append(&desk, "buyer.book", &values);
        assert!(err.contains(said), "{err}\n{said}");
    }
    // a bond whose second payment is too large for a flow
    let desk = Desk::with("buyer.book");
    let bond = [
        "nominal=10000000000",
        "security=coupons",
        "period=9",
        "payments=2",
        "coupon=1",
    ];
    let values = changed(&bill("buyer", 1), &bond);
    let err = refused_as_by_append(&desk, "buyer.book", &values);
    assert!(err.contains("refused by ground 12 in block 2"), "{err}");
}

#[test]
fn a_full_book_is_told_as_by_append_and_by_import() {
    let desk = Desk::with("empty.book");
    desk.write("more.csv", outrights(1_135));
    let err = refused_as_by_import(&desk, "empty.book", "more.csv");
    let due = "more.csv: line 1136, the book is full with 1,134 trades: refused by ground 15";
    assert_eq!(err, format!("seddolki: {due}\n"));
    desk.write("full.csv", outrights(1_134));
    assert_eq!(
        desk.run(&["preview", "empty.book", "--trades", "full.csv"])
            .status,
        DONE
    );
    desk.run(&["import", "empty.book", "full.csv"]);
    let values = bill("seller", 5);
    let err = refused_as_by_append(&desk, "empty.book", &values);
    assert!(err.ends_with(": refused by ground 15\n"), "{err}");
}

#[test]
fn every_wrong_line_is_told_at_once() {
    let desk = Desk::with("desk.book");
    let head = "kind,side,phase,cash_curve,value_day_1,value_day_2,term,repo_cash,repo_rate\n";
    let lines = [
        "pool repo,repo,1,2,1,9,7,500.00,13.2\n",
        "pool repo,repo,1,2,1,8,7,600.00,13.2\n",
        "pool repo,repo,1,2,1,8,7,lots,13.2\n",
        "pool repo,repo,1,2,1,8,9,700.00,13.2\n",
    ];
    desk.write("trades.csv", [head, &lines.concat()].concat());
    let err = refused_as_by_import(&desk, "desk.book", "trades.csv");
    let starts = [
        "line 2, column term: 7 is there, 8 is due",
        "line 4, column repo_cash: lots is not a number",
        "line 5, column term: 9 is there, 7 is due",
    ];
    assert_eq!(err.lines().count(), starts.len(), "{err}");
    for (line, start) in err.lines().zip(starts) {
        let start = format!("seddolki: trades.csv: {start}");
        assert!(line.starts_with(&start), "{line}\n{start}");
    }
}

#[test]
fn a_trade_keyed_twice_is_told_and_shown() {
    let desk = Desk::with("buyer.book");
    let values = bill("buyer", 1_000);
    let append = desk.append("buyer.book", &values);
    assert_eq!(append.status, REFUSED);
    let run = preview(&desk, "buyer.book", &values);
    assert_eq!(run.status, DONE, "{}", run.err);
    assert!(
        run.out
            .contains("\ninitial        300.00   600.00     +300.00\n"),
        "{}",
        run.out
    );
    let told = append.err.replace(
        "nothing is changed; say --again if it is meant",
        "append would refuse this unless --again is said",
    );
    assert_eq!(run.err, told);
    // what append only tells
    let values = bill("seller", 1_000);
    let run = preview(&desk, "buyer.book", &values);
    assert_eq!(run.err, desk.append("buyer.book", &values).err);
    assert!(
        run.err.contains("is the opposite side of trade 0"),
        "{}",
        run.err
    );
}

#[test]
fn a_file_imported_before_is_told_and_shown() {
    let desk = Desk::with("buyer.book");
    let csv = example("buyer.csv");
    let run = desk.run(&["preview", "buyer.book", "--trades", &csv]);
    assert_eq!(run.status, DONE, "{}", run.err);
    assert!(run.out.contains(" +300.00\n"), "{}", run.out);
    let lines: Vec<&str> = run.err.lines().collect();
    assert_eq!(lines.len(), 2, "{}", run.err);
    let words = "imported already: all its trades stand in buyer.book, at position 0";
    assert!(lines[0].ends_with(words), "{}", run.err);
    assert_eq!(
        lines[1],
        "seddolki: import would refuse this unless --again is said"
    );
    // a file that repeats a line of its own
    let (head, trades) = desk_trades();
    let desk = Desk::new();
    desk.done(&["new", "desk.book", &example("desk-curves.txt")]);
    desk.write("trades.csv", [&head[..], &trades[0], &trades[0]].concat());
    let run = desk.run(&["preview", "desk.book", "--trades", "trades.csv"]);
    assert_eq!(run.status, DONE, "{}", run.err);
    let words = "line 3 of trades.csv is the same as line 2 of trades.csv";
    assert!(run.err.contains(words), "{}", run.err);
}

#[test]
fn wrong_usage_is_told_so() {
    let desk = Desk::with("buyer.book");
    let csv = example("seller.csv");
    for arguments in [
        &["buyer.book"][..],
        &["buyer.book", "kind"],
        &["buyer.book", "kind=outright", "--trades", &csv],
        &["buyer.book", "--trades", &csv, "--json", "--csv"],
        &["buyer.book", "--trades", &csv, "--again"],
        &["buyer.book", "--trades", &csv, "--wait", "1"],
        &["-", "--trades", "-"],
    ] {
        let run = desk.run(&[&["preview"], arguments].concat());
        assert_eq!((run.status, run.out.as_str()), (MISUSED, ""));
    }
    let reason = desk.ended(MISUSED, &["preview", "buyer.book", "--csv", "seller.csv"]);
    let advice = "; a file of trades is named by --trades FILE";
    assert!(reason.ends_with(advice), "{reason}");
}

#[test]
fn files_that_are_not_there_and_books_that_are_none_are_told() {
    let desk = Desk::with("buyer.book");
    let csv = example("seller.csv");
    desk.ended(FAILED, &["preview", "no.book", "--trades", &csv]);
    desk.ended(FAILED, &["preview", "buyer.book", "--trades", "no.csv"]);
    desk.write("bad.book", [0; 1024]);
    let reason = desk.refused(&["preview", "bad.book", "--trades", &csv]);
    assert!(reason.starts_with("bad.book: header (block 0)"), "{reason}");
}

#[test]
fn what_cannot_be_printed_is_a_failure_and_a_lock_is_none() {
    let desk = Desk::with("buyer.book");
    let command = format!(
        "\"$0\" preview --day $DAY buyer.book --trades '{}'",
        example("seller.csv")
    );
    for form in ["", "--json", "--csv"] {
        let run = desk.shell(&format!("{command} {form} > /dev/full"));
        assert_eq!(run.status, FAILED, "{form}");
    }
    let _held = desk.lock();
    assert_eq!(desk.shell(&command).status, DONE);
}

#[test]
fn differences_have_a_sign_for_programs_too() {
    let desk = Desk::with("buyer.book");
    let values = words(&["preview", "buyer.book"], &bill("buyer", 2_000));
    let with = |form: &str| desk.run(&[&values[..], &[form.to_owned()]].concat()).out;
    let csv = with("--csv");
    let row =
        "\ncurrencies,7,2026-11-16,TRY,300.00,900.00,600.00,-200.00,-600.00,-400.00,100.00,300.00,200.00,";
    assert!(csv.contains(row), "{csv}");
    let semicolon = with("--semicolon");
    let row = "\ncurrencies;7;2026-11-16;TRY;300,00;900,00;600,00;-200,00;-600,00;-400,00;";
    assert!(semicolon.contains(row), "{semicolon}");
    let curve = &json(&with("--json"))["curves"][0];
    assert_eq!(
        (&curve["scenario_before"], &curve["scenario_after"]),
        (&2.into(), &2.into())
    );
    assert_eq!(curve.get("scenario_difference"), None);
}

/// The widest line behind the first, which is a sentence.
fn width(text: &str) -> usize {
    let lines = text.lines().skip(1);
    lines.map(|line| line.chars().count()).max().unwrap()
}

#[test]
fn tens_of_millions_fit_sixty_columns() {
    let desk = Desk::with("desk.book");
    let (head, trades) = desk_trades();
    let repo = trades[5].replace("1,450,000.00", "31,450,000.00");
    desk.write("trades.csv", head + &repo);
    desk.run(&["import", "desk.book", "trades.csv"]);
    let run = desk.run(&["preview", "desk.book", "--trades", "trades.csv"]);
    let line = "\nbase          -31,825,362.90  -63,310,896.84  -31,485,533.94\n";
    assert!(run.out.contains(line), "{}", run.out);
    assert!(width(&run.out) <= 60, "{}", run.out);
}

/// Half of the trades that a book takes, each with the largest payments.
fn largest_trades(rates: [&str; 2]) -> Desk {
    let desk = Desk::new();
    let curve = format!(
        "account 4294967295\ncurve EUR\nsteps 1 0 0\nranges 1 0 0\n\
         node 1 {0} {1} 0 0\nnode 10950 {0} {1} 0 0\n",
        rates[0], rates[1]
    );
    desk.write("curve.txt", curve);
    desk.done(&["new", "large.book", "curve.txt"]);
    let head = "kind,side,cash_curve,security,security_curve,nominal,value_day_1,\
                first_payment_day,period,payments,coupon,clean_price,accrued\n";
    let trade = "outright,seller,1,coupons,1,5000000000,0,121,91,120,100,0.0001,0\n";
    desk.write("trades.csv", head.to_owned() + &trade.repeat(567));
    let run = desk.run(&["import", "large.book", "trades.csv", "--again"]);
    assert_eq!(run.status, DONE);
    desk
}

/// 119 times 5,000,000,000.00 and once twice as much, of 1,134 sales, are owed
/// at 0%.
#[test]
fn the_largest_amounts_stand_in_their_columns() {
    for (rates, owed) in [(["0", "1"], "base"), (["100", "100"], "total")] {
        let desk = largest_trades(rates);
        let text = desk
            .run(&["preview", "large.book", "--trades", "trades.csv"])
            .out;
        let line = text.lines().find(|line| line.starts_with(owed)).unwrap();
        let cells: Vec<&str> = line.split_whitespace().skip(1).collect();
        let digits = |cell: &&str| cell.split(',').count();
        assert!(cells.iter().map(digits).all(|groups| groups == 5), "{line}");
        assert!(cells[1].starts_with("-68"), "{line}");
        let figures = text.lines().skip_while(|line| !line.contains(" before "));
        let ends: Vec<usize> = figures
            .filter(|line| {
                line.ends_with(|c: char| c.is_ascii_digit()) && !line.starts_with("scenario")
            })
            .map(|line| line.chars().count())
            .collect();
        assert_eq!(ends.len(), 6, "{text}");
        assert!(ends.iter().all(|end| *end == ends[0]), "{text}");
        assert!(width(&text) <= 87, "{text}");
    }
}

#[test]
fn the_help_shows_commands_that_run_as_written() {
    let desk = Desk::new();
    for command in [
        "template curves curves.txt",
        "template trades trades.csv",
        "new desk.book curves.txt",
    ] {
        desk.done(&command.split_whitespace().collect::<Vec<_>>());
    }
    let before = desk.read("desk.book");
    let mut commands = commands(&desk.done(&["preview", "--help"]));
    commands.retain(|command| command.starts_with("preview "));
    assert_eq!(commands.len(), 2, "{commands:?}");
    for command in commands {
        let text = desk.done(&command.split_whitespace().collect::<Vec<_>>());
        assert!(text.contains(" would be added"), "{text}");
        assert!(text.contains("\ninitial "), "{text}");
    }
    assert_eq!(desk.read("desk.book"), before);
}
