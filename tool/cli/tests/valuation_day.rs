//! A book is for one day, and commands that work on a day test it.

mod tool;

use seddolki::Date;
use seddolki_format::block::{seal, valuation_day, BLOCK};
use tool::today::{date_in, NOON};
use tool::{
    example, for_day, outright, Desk, Run, DAY, DAY_IN_WORDS, DONE, LENGTHEN, MISUSED, ON_DAY,
    REFUSED,
};

/// A trade that desk.book takes, as append takes it.
const REPO: &str = "kind=pool_repo side=repo phase=1 cash_curve=2 value_day_1=1 value_day_2=15 \
                    term=14 repo_cash=3000000 repo_rate=13.3";

fn words(command: &str) -> Vec<String> {
    command.split_whitespace().map(str::to_owned).collect()
}

/// Each way to work on the book of a desk, without a day.
fn commands() -> Vec<Vec<String>> {
    let csv = example("seller.csv");
    let lengthen = LENGTHEN.join(" ");
    [
        format!("append desk.book {REPO}"),
        format!("append --preview desk.book {REPO}"),
        format!("import desk.book {csv}"),
        format!("import --preview desk.book {csv}"),
        format!("preview desk.book {REPO}"),
        format!("preview desk.book --trades {csv}"),
        "amend desk.book 0 nominal=7".into(),
        "strike desk.book 0".into(),
        lengthen.clone(),
        lengthen + " --dry-run",
        "margin desk.book".into(),
        "statement desk.book".into(),
        "statement desk.book --to page.txt".into(),
        "losses desk.book".into(),
        "losses --trades desk.book".into(),
    ]
    .iter()
    .map(|command| words(command))
    .collect()
}

/// A run on a day that is said, every question answered with yes.
fn run_on(desk: &Desk, day: &str, command: &[String]) -> Run {
    let day = ["--day".to_owned(), day.to_owned()];
    desk.run_with("y\n", &[command, &day].concat())
}

#[test]
fn a_book_of_another_day_is_refused_with_both_dates() {
    let desk = Desk::with("desk.book");
    let before = desk.read("desk.book");
    for command in commands() {
        for (day, said) in [
            ("2026-11-15", "15 November 2026"),
            ("2026-11-17", "17 November 2026"),
            ("2000-01-01", "1 January 2000"),
        ] {
            let run = run_on(&desk, day, &command);
            assert_eq!((run.status, run.out.as_str()), (REFUSED, ""), "{command:?}");
            assert_eq!(
                run.err,
                format!(
                    "seddolki: desk.book: the book is for {DAY_IN_WORDS}, and the day said is \
                     {said}: refused by ground 19; say --day {DAY} if that day is meant\n"
                )
            );
            assert_eq!(desk.read("desk.book"), before);
        }
    }
    assert_eq!(desk.files(), ["desk.book"]);
}

#[test]
fn a_book_of_the_day_that_is_said_is_taken() {
    for day in ["2000-01-01", DAY, "2096-02-29", &Date::LAST.to_string()] {
        for command in commands() {
            let desk = Desk::with("desk.book");
            desk.write("desk.book", for_day(&desk.read("desk.book"), day));
            let run = run_on(&desk, day, &command);
            assert_eq!(run.status, DONE, "{command:?}: {}", run.err);
            let kept = valuation_day(&desk.read("desk.book")).to_string();
            assert_eq!(kept, day, "{command:?}");
        }
    }
}

#[test]
fn without_a_day_it_is_today() {
    let desk = Desk::with("desk.book");
    let today = date_in(&NOON).in_words();
    for command in commands() {
        let book = for_day(&desk.read("desk.book"), "2000-01-01");
        desk.write("desk.book", &book);
        let run = desk.run_in(&NOON, &command);
        assert_eq!((run.status, run.out.as_str()), (REFUSED, ""), "{command:?}");
        let due = format!(
            "seddolki: desk.book: the book is for 1 January 2000, and today is {today}: refused \
             by ground 19; say --day 2000-01-01 if that day is meant\n"
        );
        assert_eq!(run.err, due);
        assert_eq!(desk.read("desk.book"), book);
    }
    let curves = example("desk-curves.txt");
    let run = desk.run_in(&NOON, &["new", "new.book", &curves]);
    let due = format!("new.book: account 1042, valuation day {today}, 3 curves, no trades\n");
    assert_eq!((run.status, run.out), (DONE, due));
    assert_eq!(valuation_day(&desk.read("new.book")), date_in(&NOON));
    let run = desk.run_in(&NOON, &["margin", "new.book"]);
    assert_eq!(run.status, DONE, "{}", run.err);
    assert!(run
        .out
        .starts_with(&format!("account 1042, valuation day {today}\n")));
}

/// It is 25 hours later in the one zone than in the other.
#[test]
fn today_is_the_date_of_the_time_zone() {
    let desk = Desk::new();
    let [east, west] = ["Pacific/Kiritimati", "Pacific/Pago_Pago"];
    for (zone, book) in [(east, "east.book"), (west, "west.book")] {
        // midnight may fall between
        let before = date_in(zone);
        let run = desk.run_in(zone, &["new", book, &example("curve.txt")]);
        assert_eq!(run.status, DONE, "{}", run.err);
        let day = valuation_day(&desk.read(book));
        assert!([before, date_in(zone)].contains(&day), "{zone}: {day}");
    }
    for (zone, book) in [(west, "east.book"), (east, "west.book")] {
        let run = desk.run_in(zone, &["margin", book]);
        assert_eq!(run.status, REFUSED, "{}", run.out);
        assert!(run.err.contains(", and today is "), "{}", run.err);
    }
}

#[test]
fn the_day_is_tested_before_what_is_put_in() {
    let desk = Desk::with("buyer.book");
    desk.write("wrong.csv", "kind,side\nswap,nobody\n");
    desk.write("none.csv", "kind,side\n");
    let wrong = outright(5)
        .join(";")
        .replace("cash_curve=1", "cash_curve=9");
    let append = ["append;buyer.book", &wrong].join(";");
    for command in [
        &append[..],
        "import;buyer.book;wrong.csv",
        "import;buyer.book;none.csv",
        "import;--preview;buyer.book;none.csv",
        "preview;buyer.book;--trades;none.csv",
        "strike;buyer.book;9",
        "amend;buyer.book;9;nominal=5",
        "losses;buyer.book;--curve;9",
        "bootstrap;buyer.book;--curve;9;--cash;1;--components;0;0;0;nominal=1;\
         first_payment_day=1;period=1;payments=1;coupon=0",
    ] {
        let words: Vec<&str> = command.split(';').collect();
        let reason = desk.refused(&[&words[..], &["--day", "2026-11-15"]].concat());
        assert!(reason.contains(": refused by ground 19; "), "{reason}");
    }
}

#[test]
fn what_is_wrong_with_the_book_is_told_before_its_day() {
    let desk = Desk::with("buyer.book");
    let mut bytes = desk.read("buyer.book");
    bytes[BLOCK + 5] = 9;
    seal(&mut bytes[BLOCK..2 * BLOCK]);
    desk.write("buyer.book", bytes);
    let reason = desk.refused(&["margin", "--day", "2026-11-15", "buyer.book"]);
    assert!(
        reason.ends_with(": refused by ground 5 in block 1"),
        "{reason}"
    );
}

#[test]
fn what_is_no_date_is_wrong_usage() {
    let desk = Desk::with("buyer.book");
    for day in [
        "",
        "today",
        "2026-02-29",
        "2026-11-31",
        "1999-12-31",
        "2026-1-1",
        "16.11.2026",
        "20261116",
        "2026-11-16 ",
        "9816",
    ] {
        for command in [
            &["margin", "buyer.book"][..],
            &["strike", "buyer.book", "0"],
        ] {
            let run = desk.run(&[command, &["--day", day]].concat());
            assert_eq!((run.status, run.out.as_str()), (MISUSED, ""), "{day}");
            assert!(run.err.contains("--day <DATE>"), "{}", run.err);
            let allowed = "a date is year-month-day as in 2026-11-15, from 2000-01-01 on";
            assert!(run.err.contains(allowed), "{}", run.err);
        }
    }
    let twice = ["margin", "buyer.book", "--day", DAY, "--day", DAY];
    assert_eq!(desk.run(&twice).status, MISUSED);
    assert_eq!(desk.trades("buyer.book"), 1);
}

#[test]
fn the_other_commands_take_a_book_of_any_day() {
    let desk = Desk::with("desk.book");
    desk.write("desk.book", for_day(&desk.read("desk.book"), "2099-12-31"));
    let other = example("desk.book");
    for command in [
        &["show", "desk.book"][..],
        &["check", "desk.book"],
        &["check", "--doubles", "desk.book"],
        &["flows", "desk.book"],
        &["export", "desk.book"],
        &["export", "--curves", "desk.book"],
        &["plot", "desk.book", "1", "-"],
        &["plot", "--losses", "desk.book", "1", "-"],
        &["diff", "desk.book", &other],
        &["explain", "19", "desk.book"],
    ] {
        assert!(!ON_DAY.contains(&command[0]));
        desk.done(command);
        let run = desk.run(&[command, &["--day", "2099-12-31"]].concat());
        assert_eq!(run.status, MISUSED, "{command:?}");
    }
}

#[test]
fn the_help_has_the_day_where_a_command_takes_one() {
    let desk = Desk::new();
    let manual = desk.done(&["man"]);
    let sections = manual.split("\n.SS ").skip(1);
    let sections: Vec<(&str, &str)> = sections.filter_map(|s| s.split_once('\n')).collect();
    assert!(sections.len() > ON_DAY.len());
    let (_, rule) = manual.split_once("\n.SH VALUATION DAY\n").unwrap();
    let (rule, _) = rule.split_once("\n.SH ").unwrap();
    for command in ON_DAY {
        let mut words = rule.split(|letter: char| !letter.is_alphabetic());
        assert!(words.any(|word| word == command), "{command}: {rule}");
    }
    for (command, section) in sections {
        let due = ON_DAY.contains(&command);
        let help = desk.done(&[command, "--help"]);
        assert_eq!(help.contains("--day <DATE>"), due, "{help}");
        assert_eq!(
            section.contains("\n\\fB\\-\\-day DATE\\fR\n"),
            due,
            "{section}"
        );
    }
}

/// What a command says first of a book that is for the last day of a year.
#[test]
fn a_book_is_shown_with_its_day() {
    let desk = Desk::with("buyer.book");
    desk.write(
        "buyer.book",
        for_day(&desk.read("buyer.book"), "2030-12-31"),
    );
    let named = "account 7, valuation day 31 December 2030";
    let on = ["--day", "2030-12-31"];
    for command in [
        &["show", "buyer.book"][..],
        &["flows", "buyer.book"],
        &[&["margin", "buyer.book"][..], &on].concat(),
        &[&["losses", "buyer.book"][..], &on].concat(),
        &[&["losses", "--trades", "buyer.book"][..], &on].concat(),
    ] {
        let text = desk.done(command);
        let tables = text.strip_prefix(&format!("{named}\n\n"));
        let tables = tables.unwrap_or_else(|| panic!("{command:?}: {text}"));
        assert!(!tables.contains("valuation"), "{command:?}: {text}");
        let row = "2030-12-31";
        let csv = desk.done(&[command, &["--csv"]].concat());
        assert!(csv.contains("valuation_day") && csv.contains(row), "{csv}");
        let json = desk.done(&[command, &["--json"]].concat());
        assert!(json.contains("\"valuation_day\": \"2030-12-31\""), "{json}");
    }
    let line = format!("buyer.book: accepted, {named}, 1 curve, 1 trade\n");
    assert_eq!(desk.done(&["check", "buyer.book"]), line);
    let row = "\nbuyer.book,true,,,,7,2030-12-31,1,1\n";
    let csv = desk.done(&["check", "--csv", "buyer.book"]);
    assert!(csv.ends_with(row), "{csv}");
    let picture = desk.done(&["plot", "buyer.book", "1", "-"]);
    let title = "Curve 1 of account 7 on 31 December 2030, TRY: ";
    assert!(picture.contains(title), "{picture}");
    desk.done(&["strike", "--day", "2030-12-31", "buyer.book", "0"]);
    let none = format!("{named}\n\nno cash flows\n");
    assert_eq!(desk.done(&["flows", "buyer.book"]), none);
}

#[test]
fn a_new_book_is_for_the_day_that_is_said() {
    let last = Date::LAST.to_string();
    for (day, in_words) in [
        ("2000-01-01", "1 January 2000"),
        ("2031-05-04", "4 May 2031"),
        (&last, &Date::LAST.in_words()),
    ] {
        let desk = Desk::new();
        let text = desk.done(&["new", "--day", day, "new.book", &example("curve.txt")]);
        let due = format!("account 7, valuation day {in_words}, 1 curve, no trades");
        assert_eq!(text, format!("new.book: {due}\n"));
        assert_eq!(valuation_day(&desk.read("new.book")).to_string(), day);
        let run = desk.shell(&format!(
            "\"$0\" new --day {day} - '{}' | cmp - new.book",
            example("curve.txt")
        ));
        assert_eq!(run.status, DONE, "{}", run.err);
    }
}

#[test]
fn of_several_books_those_of_another_day_are_refused_alone() {
    let desk = Desk::with("buyer.book");
    desk.copy("seller.book", "seller.book");
    for day in ["2026-11-13", "2027-11-16"] {
        desk.write(
            format!("{day}.book"),
            for_day(&desk.read("buyer.book"), day),
        );
    }
    let books = [
        "2027-11-16.book",
        "buyer.book",
        "2026-11-13.book",
        "seller.book",
    ];
    let run = desk.run(&[&["margin"], &books[..]].concat());
    assert_eq!(run.status, REFUSED);
    let lines: Vec<&str> = run.err.lines().collect();
    let starts = [
        "seddolki: 2027-11-16.book: the book is for 16 November 2027, ",
        "seddolki: 2026-11-13.book: the book is for 13 November 2026, ",
    ];
    assert_eq!(lines.len(), starts.len(), "{}", run.err);
    for (line, start) in lines.iter().zip(starts) {
        assert!(line.starts_with(start), "{line}");
    }
    assert_eq!(run.out, desk.done(&["margin", "buyer.book", "seller.book"]));
    let run = desk.run(&["margin", "2027-11-16.book", "2026-11-13.book"]);
    assert_eq!((run.status, run.out.as_str()), (REFUSED, ""));
}

#[test]
fn books_of_two_days_are_told_apart() {
    let desk = Desk::with("buyer.book");
    desk.write(
        "other.book",
        for_day(&desk.read("buyer.book"), "2026-11-17"),
    );
    assert_eq!(
        desk.done(&["diff", "buyer.book", "other.book"]),
        "change         number  column         before      after\n\
         valuation day          valuation_day  2026-11-16  2026-11-17\n"
    );
    assert_eq!(
        desk.done(&["diff", "buyer.book", "other.book", "--csv"]),
        "change,number,column,before,after\n\
         valuation day,,valuation_day,2026-11-16,2026-11-17\n"
    );
}

#[test]
fn the_ground_is_explained_beside_a_book() {
    let desk = Desk::with("buyer.book");
    let text = desk.done(&["explain", "19", "buyer.book"]);
    let end = "\nbuyer.book: accepted, account 7, valuation day 16 November 2026\n";
    let start = "ground 19, valuation day: ";
    assert!(text.starts_with(start) && text.ends_with(end), "{text}");
}
