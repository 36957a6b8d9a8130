//! Trades that are looked at, and added if the answer is yes.

mod tool;

use std::io::{Read, Write};
use std::process::{Child, Stdio};
use tool::{ended, example, outright, Desk, Run, DONE, FAILED, MISUSED, REFUSED};

const QUESTION: &str = "Add this trade? [y/N] ";

/// A trade that no other in desk.book is like, as append takes it.
const REPO: &str = "kind=pool_repo side=repo phase=1 cash_curve=2 value_day_1=1 value_day_2=15 \
                    term=14 repo_cash=3000000 repo_rate=13.3";

fn arguments(command: &str) -> Vec<&str> {
    [command, REPO]
        .iter()
        .flat_map(|words| words.split_whitespace())
        .collect()
}

/// The repo looked at, and a question answered so.
fn answered(desk: &Desk, answer: &str) -> Run {
    desk.run_with(answer, &arguments("append --preview desk.book"))
}

/// What is shown before the question.
fn shown(desk: &Desk) -> String {
    let shown = desk.done(&arguments("preview desk.book"));
    shown.replacen("; nothing is changed", "", 1)
}

#[test]
fn a_yes_adds_the_trade_that_was_shown() {
    for answer in ["y\n", "Y\n", "yes\n", " Yes \r\n", "y"] {
        let desk = Desk::with("desk.book");
        let shown = shown(&desk);
        let run = answered(&desk, answer);
        assert_eq!((run.status, run.err), (DONE, format!("{QUESTION}\n")));
        let word = run.out.strip_prefix(&shown).expect("the preview is shown");
        let start = "desk.book: trade 11 is added: repo member in a pool repo";
        assert!(word.starts_with(start), "{word}");
        assert_eq!(word.lines().count(), 1, "{word}");
        let plain = Desk::with("desk.book");
        plain.done(&arguments("append desk.book"));
        assert_eq!(desk.read("desk.book"), plain.read("desk.book"));
        assert_eq!(desk.files(), ["desk.book"]);
    }
}

#[test]
fn any_other_answer_and_none_leave_the_book() {
    let long = "y".repeat(1_000) + "\n";
    for answer in ["n\n", "N\n", "no\n", "\n", "yesterday\n", "", &long] {
        let desk = Desk::with("desk.book");
        let before = desk.read("desk.book");
        let run = answered(&desk, answer);
        assert_eq!((run.status, run.out), (REFUSED, shown(&desk)), "{answer:?}");
        let said = "seddolki: desk.book: nothing is added: the answer is not yes\n";
        assert_eq!(run.err, format!("{QUESTION}\n{said}"));
        assert_eq!(desk.read("desk.book"), before);
        assert_eq!(desk.files(), ["desk.book"]);
    }
}

#[test]
fn each_question_takes_one_line() {
    let desk = Desk::with("desk.book");
    let again = REPO.replace("13.3", "13.4");
    let run = desk.shell(&format!(
        "printf 'n\\ny\\n' | {{ \"$0\" append --day $DAY --preview desk.book {REPO}; \
         \"$0\" append --day $DAY --preview desk.book {again}; }}"
    ));
    assert_eq!(run.status, DONE, "{}", run.err);
    assert_eq!(desk.trades("desk.book"), 12);
    let rates = desk.done(&["export", "desk.book"]);
    assert!(rates.ends_with(",13.4000,,\n"), "{rates}");
}

/// A run that has asked, and waits for its answer.
struct Asked(Child);

impl Asked {
    fn about_the_repo(desk: &Desk) -> Self {
        let mut command = desk.tool(&arguments("append --preview desk.book"));
        let command = command.stdin(Stdio::piped()).stdout(Stdio::piped());
        let mut child = command.stderr(Stdio::piped()).spawn().unwrap();
        let (mut words, mut byte) = (vec![], [0]);
        while !words.ends_with(QUESTION.as_bytes()) {
            let errors = child.stderr.as_mut().unwrap();
            errors.read_exact(&mut byte).unwrap();
            words.push(byte[0]);
        }
        Asked(child)
    }

    fn answered_yes(mut self) -> Run {
        self.0.stdin.take().unwrap().write_all(b"y\n").unwrap();
        ended(self.0.wait_with_output().unwrap())
    }
}

#[test]
fn a_book_that_another_edits_meanwhile_gets_no_trade() {
    let others = [
        &["append", "--wait", "0", "desk.book"][..],
        &["strike", "--wait", "0", "desk.book", "10"],
        &["amend", "--wait", "0", "desk.book", "0", "nominal=7"],
    ];
    for other in others {
        let desk = Desk::with("desk.book");
        let asked = Asked::about_the_repo(&desk);
        // the folder is not locked while it is thought about
        let values = if other[0] == "append" {
            outright(5)
        } else {
            vec![]
        };
        let other = other.iter().map(|word| (*word).to_owned()).chain(values);
        let run = desk.run(&other.collect::<Vec<_>>());
        assert_eq!(run.status, DONE, "{}", run.err);
        let edited = desk.read("desk.book");
        let run = asked.answered_yes();
        assert_eq!(run.status, FAILED, "{}", run.err);
        assert!(!run.out.contains("is added"), "{}", run.out);
        let said = "seddolki: desk.book: was changed since it was shown; nothing is added\n";
        assert!(run.err.ends_with(said), "{}", run.err);
        assert_eq!(desk.read("desk.book"), edited);
        assert_eq!(desk.files(), ["desk.book"]);
    }
}

#[test]
fn a_book_that_goes_to_another_day_meanwhile_gets_no_trade() {
    let desk = Desk::with("desk.book");
    let asked = Asked::about_the_repo(&desk);
    let curves = example("desk-curves.txt");
    let tomorrow = ["--day", "2026-11-17", "--keep-days"];
    desk.done(&[&["curves", "desk.book", &curves], &tomorrow[..]].concat());
    let moved = desk.read("desk.book");
    let run = asked.answered_yes();
    assert_eq!(run.status, REFUSED, "{}", run.err);
    let said = "desk.book: the book is for 17 November 2026, and the day said is 16 November 2026";
    assert!(run.err.contains(said), "{}", run.err);
    assert_eq!(desk.read("desk.book"), moved);
}

#[test]
fn a_run_that_ends_while_it_asks_leaves_no_trace() {
    let desk = Desk::with("desk.book");
    let before = desk.read("desk.book");
    let Asked(mut child) = Asked::about_the_repo(&desk);
    child.kill().unwrap();
    child.wait().unwrap();
    assert_eq!(desk.read("desk.book"), before);
    assert_eq!(desk.files(), ["desk.book"]);
    assert_eq!(answered(&desk, "y\n").status, DONE);
}

#[test]
fn an_edit_back_to_the_same_bytes_is_no_change() {
    let desk = Desk::with("desk.book");
    let before = desk.read("desk.book");
    let asked = Asked::about_the_repo(&desk);
    assert_eq!(desk.append("desk.book", &outright(5)).status, DONE);
    desk.done(&["strike", "desk.book", "11"]);
    assert_eq!(desk.read("desk.book"), before);
    let run = asked.answered_yes();
    assert_eq!((run.status, desk.trades("desk.book")), (DONE, 12));
}

/// The trade of buyer.book.
const SAME: &str = "kind=outright side=buyer cash_curve=1 security=single_payment \
                    security_curve=1 nominal=1000 value_day_1=0 first_payment_day=365 \
                    clean_price=70 accrued=0";

#[test]
fn what_append_refuses_is_not_asked_for() {
    let desk = Desk::with("buyer.book");
    desk.write("bad.book", [0; 1024]);
    let before = desk.read("buyer.book");
    let wrong = SAME.replace("day=365", "day=0");
    for (book, values, status) in [
        ("buyer.book", SAME, REFUSED),
        ("buyer.book", &wrong, REFUSED),
        ("buyer.book", "kind=swap", REFUSED),
        ("bad.book", SAME, REFUSED),
        ("no.book", SAME, FAILED),
        ("-", SAME, MISUSED),
    ] {
        let values: Vec<&str> = values.split_whitespace().collect();
        let append = [&["append", book], &values[..]].concat();
        let plain = desk.run_with("y\n", &append);
        let run = desk.run_with("y\n", &[&append[..], &["--preview"]].concat());
        assert_eq!((run.status, run.out.as_str()), (status, ""), "{}", run.err);
        assert_eq!(run.err, plain.err);
    }
    assert_eq!(desk.read("buyer.book"), before);
}

#[test]
fn a_double_that_is_meant_is_told_before_the_question() {
    let desk = Desk::with("buyer.book");
    let values: Vec<&str> = SAME.split_whitespace().collect();
    let append = ["append", "--preview", "--again", "buyer.book"];
    let run = desk.run_with("y\n", &[&append[..], &values].concat());
    assert_eq!((run.status, desk.trades("buyer.book")), (DONE, 2));
    assert!(run.err.ends_with(&format!("{QUESTION}\n")), "{}", run.err);
    let told = "the new trade is the same as trade 0, byte for byte";
    assert_eq!(run.err.matches(told).count(), 1, "{}", run.err);
}

#[test]
fn what_could_not_be_shown_is_not_asked_for() {
    let desk = Desk::with("desk.book");
    let before = desk.read("desk.book");
    let run = desk.shell(&format!(
        "echo y | \"$0\" append --day $DAY --preview desk.book {REPO} > /dev/full"
    ));
    assert_eq!(run.status, FAILED, "{}", run.err);
    assert!(!run.err.contains(QUESTION), "{}", run.err);
    assert_eq!(desk.read("desk.book"), before);
    // an answer that can't be read is no yes
    let run = desk.shell(&format!(
        "\"$0\" append --day $DAY --preview desk.book {REPO} < ."
    ));
    assert_eq!(run.status, FAILED, "{}", run.err);
    assert!(
        run.err.contains("standard input: is a directory"),
        "{}",
        run.err
    );
    assert_eq!(desk.read("desk.book"), before);
    for form in ["--json", "--csv", "--semicolon"] {
        let run = desk.run(&[&arguments("append --preview desk.book")[..], &[form]].concat());
        assert_eq!((run.status, run.out.as_str()), (MISUSED, ""), "{form}");
    }
}

#[test]
fn a_lock_is_waited_for_after_the_answer() {
    let desk = Desk::with("desk.book");
    let before = desk.read("desk.book");
    let held = desk.lock();
    let append = arguments("append --wait 0 --preview desk.book");
    let run = desk.run_with("y\n", &append);
    assert_eq!(run.status, FAILED);
    assert!(run.err.contains(QUESTION), "{}", run.err);
    assert_eq!(desk.read("desk.book"), before);
    assert_eq!(desk.run_with("n\n", &append).status, REFUSED);
    drop(held);
    assert_eq!(desk.run_with("y\n", &append).status, DONE);
}

#[test]
fn it_is_asked_on_a_terminal() {
    for (answer, status, trades) in [("y", DONE, 12), ("n", REFUSED, 11), ("", REFUSED, 11)] {
        let desk = Desk::with("desk.book");
        // `script` gives its command a terminal, and the end of its own input
        let run = desk.shell(&format!(
            "printf '%s\\n' {answer} | timeout 20 script -qec \
             \"'$0' append --day $DAY --preview desk.book {REPO}\" /dev/null"
        ));
        assert_eq!(run.status, status, "{answer}: {}", run.out);
        assert!(run.out.contains(QUESTION), "{}", run.out);
        assert_eq!(desk.trades("desk.book"), trades);
    }
    let desk = Desk::with("desk.book");
    let run = desk.shell(&format!(
        "timeout 20 script -qec \"'$0' append --day $DAY --preview desk.book {REPO}\" /dev/null < /dev/null"
    ));
    assert_eq!(
        (run.status, desk.trades("desk.book")),
        (REFUSED, 11),
        "{}",
        run.out
    );
    // the question stands there also where the tables go elsewhere
    let run = desk.shell(&format!(
        "echo y | timeout 20 script -qec \
         \"'$0' append --day $DAY --preview desk.book {REPO} > shown.txt\" /dev/null"
    ));
    assert!(run.out.contains(QUESTION), "{}", run.out);
    assert!(desk
        .read("shown.txt")
        .starts_with(b"desk.book: trade 11 would be added: "));
    assert_eq!((run.status, desk.trades("desk.book")), (DONE, 12));
}

#[test]
fn the_trades_of_a_file_are_asked_for_together() {
    let desk = Desk::new();
    desk.done(&["new", "desk.book", &example("desk-curves.txt")]);
    let (before, csv) = (desk.read("desk.book"), example("desk-trades.csv"));
    let import = ["import", "--preview", "desk.book", &csv];
    let run = desk.run_with("n\n", &import);
    assert_eq!(run.status, REFUSED);
    assert!(
        run.err.starts_with("Add these 11 trades? [y/N] \n"),
        "{}",
        run.err
    );
    assert_eq!(desk.read("desk.book"), before);
    let run = desk.run_with("y\n", &import);
    assert_eq!(run.status, DONE, "{}", run.err);
    let start =
        "desk.book: 11 trades would be added, at positions 0 to 10\n\naccount 1042, valuation day ";
    assert!(run.out.starts_with(start), "{}", run.out);
    let end = "\ndesk.book: 11 trades are added, at positions 0 to 10\n";
    assert!(run.out.ends_with(end), "{}", run.out);
    let due = std::fs::read(example("desk.book")).unwrap();
    assert_eq!(desk.read("desk.book"), due);
}

#[test]
fn a_file_that_is_refused_or_has_no_trades_is_not_asked_for() {
    let desk = Desk::with("desk.book");
    let before = desk.read("desk.book");
    let import = |file: &str| desk.run_with("y\n", &["import", "--preview", "desk.book", file]);
    for (name, said) in [
        ("desk-trades.csv", ": imported already: "),
        ("wrong-trades.csv", "line 3, column "),
    ] {
        let run = import(&example(name));
        assert_eq!((run.status, run.out.as_str()), (REFUSED, ""));
        assert!(run.err.contains(said), "{}", run.err);
        assert!(!run.err.contains("[y/N]"), "{}", run.err);
    }
    desk.write("none.csv", "kind,side\n");
    let run = import("none.csv");
    assert_eq!((run.status, run.err.as_str()), (DONE, ""));
    let end = "\ndesk.book: no trade is added\n";
    assert!(run.out.ends_with(end), "{}", run.out);
    let run = import("-");
    assert_eq!((run.status, run.out.as_str()), (MISUSED, ""));
    assert!(run.err.contains("has the answer"), "{}", run.err);
    assert_eq!(desk.read("desk.book"), before);
}
