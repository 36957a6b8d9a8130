//! Files of trades, read and written.

use seddolki_books::curve::draw_curves;
use seddolki_books::{draw_record, Draw};
use seddolki_format::record::{OUTRIGHT, POOL};
use seddolki_format::Record;
use seddolki_text::trades_file::{read, write, TradesFile};
use seddolki_text::{Fault, Separator, COLUMNS};

const REPO: &str = "kind,side,phase,cash_curve,value_day_1,value_day_2,term,repo_cash,repo_rate\n\
                    pool repo,repo,1,2,1,8,7,500.00,13.2\n";

const BOND: &str = "kind,side,cash_curve,security,security_curve,nominal,value_day_1,\
                    first_payment_day,accrued,clean_price\n";

/// The line and the record of each trade of a file without faults.
fn trades(file: impl AsRef<[u8]>) -> Vec<(u64, Record)> {
    let file = read(file.as_ref()).unwrap();
    assert_eq!(file.faults, []);
    lines_of(&file)
}

fn lines_of(file: &TradesFile) -> Vec<(u64, Record)> {
    let trades = file.trades.iter();
    trades.map(|trade| (trade.line, trade.record)).collect()
}

/// The faults of the lines, where the column names are right.
fn wrong(file: impl AsRef<[u8]>) -> Vec<String> {
    told(&read(file.as_ref()).unwrap().faults)
}

/// The faults of the column names.
fn refused(file: impl AsRef<[u8]>) -> Vec<String> {
    told(&read(file.as_ref()).unwrap_err())
}

fn told(faults: &[Fault]) -> Vec<String> {
    faults.iter().map(ToString::to_string).collect()
}

fn repo() -> Record {
    Record {
        kind: POOL,
        side: 1,
        phase: 1,
        cash_curve: 2,
        value_day_1: 1,
        value_day_2: 8,
        term: 7,
        repo_cash: 50_000,
        price_or_rate: 132_000,
        ..Record::default()
    }
}

#[test]
fn separators_tell_how_numbers_are_written() {
    assert_eq!(trades(REPO), [(2, repo())]);
    let semicolons = REPO.replace(',', ";");
    assert_eq!(trades(semicolons.replace('.', ",")), [(2, repo())]);
    assert_eq!(
        wrong(&semicolons),
        [
            "line 2, column repo_cash: 500.00 is not a number with a decimal comma: write 500,00",
            "line 2, column repo_rate: 13.2 is not a number with a decimal comma: write 13,2000",
        ]
    );
    let tabs = REPO.replace(',', "\t");
    assert_eq!(trades(&tabs), [(2, repo())]);
    assert_eq!(trades(tabs.replace('.', ",")), [(2, repo())]);
    for sign in [".", ","] {
        let faults = wrong(tabs.replace("13.2", &format!("13{sign}200")));
        assert!(
            faults[0].starts_with("line 2, column repo_rate: 13"),
            "{faults:?}"
        );
        assert!(faults[0].contains("can be read as 13"), "{faults:?}");
    }
}

#[test]
fn marks_line_ends_and_empty_lines_are_taken() {
    let mut spread = REPO.replace("13.2\n", "13.2\n\n \n,,,,,,,,\n") + REPO.lines().nth(1).unwrap();
    assert_eq!(trades(&spread), [(2, repo()), (6, repo())]);
    spread = format!("\u{feff}\n,,,\n{spread}\n,,,\n");
    assert_eq!(trades(&spread), [(4, repo()), (8, repo())]);
    assert_eq!(
        trades(spread.replace('\n', "\r\n")),
        [(4, repo()), (8, repo())]
    );
    assert_eq!(
        trades(spread.replace('\n', "\r")),
        [(4, repo()), (8, repo())]
    );
}

#[test]
fn names_come_in_any_order_and_case() {
    let file = "\"Repo Rate\", REPO_CASH,Term,value day 2,value_day_1,cash_curve,phase,side,kind\n\
                13.2,\"500\",7,8,1,2,1,Repo,POOL REPO\n";
    assert_eq!(trades(file), [(2, repo())]);
    assert!(trades("kind\n").is_empty());
    assert_eq!(
        wrong("\"kind\"\noutright\n")[0],
        "line 2, column side: nothing is given: buyer or seller"
    );
}

#[test]
fn column_names_are_looked_at_first() {
    let missing = ["the line of column names is missing"];
    assert_eq!(refused(""), missing);
    assert_eq!(refused("\u{feff}\n,;\n\n"), missing);
    let names: Vec<&str> = COLUMNS.iter().map(|column| column.name).collect();
    let (last, others) = names.split_last().unwrap();
    let all = format!("{} or {last}", others.join(", "));
    assert_eq!(
        refused("kind,price,Kind,,sid\nswap,,,,\n"),
        [
            "line 1, column kind: it is named twice".to_owned(),
            "line 1: there is no column sid: is side meant?".into(),
            format!("line 1: there is no column price or without a name: {all}"),
        ]
    );
    let allowed = "comma, semicolon or tab";
    assert_eq!(
        refused("\nkind side\n"),
        [format!(
            "line 2: nothing stands between the column names: {allowed}"
        )]
    );
    assert_eq!(
        refused("kind;side,phase\n"),
        [format!(
            "line 1: comma and semicolon stand between the column names: {allowed}"
        )]
    );
    assert_eq!(
        refused("kind;side\tphase,term\n"),
        [format!(
            "line 1: comma, semicolon and tab stand between the column names: {allowed}"
        )]
    );
    assert_eq!(
        refused("kind,\"a;b\"\n"),
        [format!("line 1: there is no column a;b: {all}")]
    );
    assert_eq!(
        refused("kind,\"side\n"),
        ["line 1: a quote is not closed on its line"]
    );
}

/// As Turkish Windows and spreadsheets write that are not told otherwise.
#[test]
fn other_encodings_are_told() {
    let due = ["line 1: it is not written in UTF-8: save it as CSV UTF-8"];
    assert_eq!(refused(b"kind,s\xfede\n"), due);
    for mark in ["\u{feff}", ""] {
        let file = format!("{mark}kind\tside\r\n");
        let units: Vec<u16> = file.encode_utf16().collect();
        let low_first: Vec<u8> = units.iter().flat_map(|unit| unit.to_le_bytes()).collect();
        let high_first: Vec<u8> = units.iter().flat_map(|unit| unit.to_be_bytes()).collect();
        assert_eq!(refused(low_first), due);
        assert_eq!(refused(high_first), due);
    }
}

#[test]
fn unnamed_columns_behind_the_others_are_empty() {
    let (names, values) = REPO.trim_end().split_once('\n').unwrap();
    for (behind_names, behind_values) in [(",,", ",,"), (", ,\"\"", ","), (",,", ""), (",", ", ")] {
        let file = format!("{names}{behind_names}\n{values}{behind_values}\n");
        assert_eq!(trades(file), [(2, repo())]);
    }
    let file = format!("{names},,\n{values},,x\n{values},,,\n{values}\n{values},1,\n");
    assert_eq!(
        wrong(&file),
        [
            "line 2: x stands in a column without a name",
            "line 3: 9 values due by the column names, 12 found",
            "line 5: 1 stands in a column without a name",
        ]
    );
    let between = refused("kind,,side\n");
    assert!(between[0].starts_with("line 1: there is no column without a name: kind, "));
}

#[test]
fn a_first_line_may_say_what_separates() {
    let semicolons = REPO.replace(',', ";").replace('.', ",");
    let tabs = REPO.replace(',', "\t");
    for (first, file) in [
        ("sep=,", REPO),
        ("sep=;", &semicolons),
        ("SEP=;", &semicolons),
        ("\"sep=;\"", &semicolons),
        ("sep=\t", &tabs),
        ("sep=\\t", &tabs),
    ] {
        for end in ["\n", "\r\n", "\r"] {
            let file = format!("\u{feff}{first}\n{file}").replace('\n', end);
            assert_eq!(trades(&file), [(3, repo())], "{file:?}");
        }
    }
    // it decides how numbers are written where one column does not
    assert_eq!(
        wrong("sep=;\nkind\noutright\n").last().unwrap(),
        "line 3, column accrued: nothing is given: 0,0000 to 100,0000"
    );
    assert_eq!(
        refused(format!("sep=;\n{REPO}")),
        ["line 2: comma stands between the column names: semicolon is due"]
    );
    assert_eq!(
        refused("sep=,\n\nkind,side;phase\n"),
        ["line 3: comma and semicolon stand between the column names: comma is due"]
    );
    assert_eq!(
        refused("sep=|\nkind|side\n"),
        ["line 1: sep=| names none of comma, semicolon or tab"]
    );
    assert_eq!(refused("sep=;\n"), ["the line of column names is missing"]);
}

#[test]
fn every_wrong_line_is_told_at_once() {
    let lines = b"outright,buyer,1,coupons,1,\"1,000.00\",0,9,0,99\n\
        outright,repo,1,single payment,1,1,000.00,0,9,0,99\n\
        outright,repo,1,single payment,1,\"1,000.00\",0,9,0,\"99,5\"\n\
        \n\
        outright,buyer,\"1,single payment,1,100,0,9,0,99\n\
        outright,buyer,-1,single payment,1,100,0,9,0,99\n\
        outright,buyer,\"1\"1,single payment,1,100,0,9,0,99\n\
        outright,b\xfcyer,1,single payment,1,100,0,9,0,99\n\
        ,buyer,1,single payment,1,100,0,9,0,99\n\
        outright,buyer,300,single payment,1,1 0,0,9,0,99\n\
        outright,buyer,1,single payment,1,100,0,9,0,\n\
        outright,seller,1,single payment,1,100,0,9,0\n\
        outright,\"seller,1,single payment,1,100,0,9,0,99\n\
        outright,seller,1,single payment,1,100,0,9,0,99\"\n";
    let file = [BOND.as_bytes(), lines].concat();
    assert_eq!(
        wrong(&file),
        [
            "line 2, column period: nothing is given: 1 to 366",
            "line 2, column payments: nothing is given: 1 to 120",
            "line 2, column coupon: nothing is given: 0.0000 to 100.0000",
            "line 3: 10 values due by the column names, 11 found",
            "line 4, column side: repo is not for an outright: buyer or seller",
            "line 4, column clean_price: 99,5 is not a number with a decimal point: write 99.5000",
            "line 6: a quote is not closed on its line",
            "line 7, column cash_curve: -1 is too small: 1 to 8",
            "line 8: text stands behind a closing quote",
            "line 9: it is not written in UTF-8: save it as CSV UTF-8",
            "line 10, column kind: nothing is given: outright, pool repo or specified repo",
            "line 11, column cash_curve: 300 is too large: 1 to 8",
            "line 11, column nominal: 1 0 is not a number: 0.01 to 10,000,000,000.00",
            "line 12, column clean_price: nothing is given: 0.0001 to 400.0000",
            "line 13: 10 values due by the column names, 9 found",
            "line 14: a quote is not closed on its line",
            "line 15, column clean_price: 99\" is not a number: 0.0001 to 400.0000",
        ]
    );
}

fn drawn(draw: &mut Draw, count: u64) -> Vec<Record> {
    let curves = draw_curves(draw);
    let record = |_| draw_record(draw, &curves, 120);
    (0..count).map(record).collect()
}

#[test]
fn what_is_written_is_read_as_the_same_records() {
    let mut draw = Draw::new(3);
    for count in 0..40 {
        let records = drawn(&mut draw, count);
        for separator in Separator::ALL {
            let file = write(&records, separator);
            let due: Vec<(u64, Record)> = (2..).zip(records.iter().copied()).collect();
            assert_eq!(trades(&file), due, "{file}");
        }
    }
}

#[test]
fn written_files_have_all_columns() {
    let names = "kind;side;phase;cash_curve;security;security_curve;nominal;value_day_1;\
                 value_day_2;term;first_payment_day;period;payments;coupon;clean_price;accrued;\
                 repo_cash;repo_rate;settlement_index;issue_index\n";
    assert_eq!(write(&[], Separator::Semicolon), names);
    let bond = Record {
        kind: OUTRIGHT,
        side: 2,
        security: 1,
        nominal: 123_456_789,
        ..Record::default()
    };
    assert_eq!(
        write(&[repo(), bond], Separator::Semicolon),
        names.to_owned()
            + "pool repo;repo;1;2;none;;;1;8;7;;;;;;;500,00;13,2000;;\n\
               outright;seller;;0;single payment;0;1234567,89;0;;;0;;;;0,0000;0,0000;;;;\n"
    );
    let commas = write(&[repo()], Separator::Comma);
    assert!(
        commas.ends_with("\npool repo,repo,1,2,none,,,1,8,7,,,,,,,500.00,13.2000,,\n"),
        "{commas}"
    );
}

/// What is still read is written and read as the same; all else has a line.
#[test]
fn spoiled_files_are_told_by_line() {
    let mut draw = Draw::new(4);
    let mut taken = 0;
    for _ in 0..2_000 {
        let separator = draw.pick(&Separator::ALL);
        let mut bytes = write(&drawn(&mut draw, 2), separator).into_bytes();
        let names = bytes.iter().position(|byte| *byte == b'\n').unwrap();
        let first = draw.pick(&[0, names, names]);
        for _ in 0..draw.within(1..=2) {
            let place = first + draw.place(bytes.len() - first);
            bytes[place] = draw.pick(b"0123456789\"\n\r,;\t.\xff x");
        }
        let lines = bytes.split(|byte| b"\r\n".contains(byte)).count() as u64;
        let file = read(&bytes);
        let faults = match &file {
            Ok(file) => &file.faults,
            Err(faults) => faults,
        };
        let mut told = faults.iter().map(|fault| fault.line.unwrap());
        assert!(told.all(|line| (1..=lines).contains(&line)), "{faults:?}");
        if let Ok(file) = file {
            taken += file.trades.len();
            let records: Vec<Record> = file.trades.iter().map(|trade| trade.record).collect();
            let again = trades(write(&records, separator)).into_iter();
            assert!(again.map(|(_, record)| record).eq(records));
        }
    }
    assert!((400..3_600).contains(&taken), "{taken}");
}

#[test]
fn right_lines_are_given_beside_the_wrong_ones() {
    let right = REPO.lines().nth(1).unwrap();
    let wrong = right.replace("13.2", "x");
    let file = format!("{REPO}{wrong}\n{right}\n{wrong}\npool repo\n{right}\n");
    let file = read(file.as_bytes()).unwrap();
    assert_eq!(lines_of(&file), [(2, repo()), (4, repo()), (7, repo())]);
    let rate = "column repo_rate: x is not a number: 0.0000 to 100.0000";
    assert_eq!(
        told(&file.faults),
        [
            format!("line 3, {rate}"),
            format!("line 5, {rate}"),
            "line 6: 9 values due by the column names, 1 found".into(),
        ]
    );
}
