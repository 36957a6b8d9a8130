//! Repos whose security pays inside the term are entered, amended and struck.

mod tool;

use tool::term_repo::{desk, with, BILL, ENDS, POOL, SETTLED, SETTLED_POOL};
use tool::{changed, commands, Desk, DONE};

/// The reason why the book refuses the repo with these changes.
fn refusal(desk: &Desk, command: &[&str], values: &[String]) -> String {
    let before = desk.read("empty.book");
    let command: Vec<String> = command.iter().map(|word| (*word).to_owned()).collect();
    let reason = desk.refused(&[&command[..], values].concat());
    assert_eq!(desk.read("empty.book"), before);
    reason
}

#[test]
fn a_first_payment_on_value_day_1_is_refused() {
    let desk = Desk::with("empty.book");
    let early = ["value_day_1=300", "term=430", "first_payment_day=300"];
    for (changes, words) in [
        (
            &[&early[..]][..],
            "300 is there, 301 to 10,220 is due: a repo's payments fall after value day 1",
        ),
        (
            &[&early[..], &POOL, &BILL],
            "300 is there, 301 to 10,950 is due: a repo's payments fall after value day 1",
        ),
        (
            &[&SETTLED[..], &["first_payment_day=0"]],
            "0 is there, 1 to 10,220 is due: where the first leg has settled, payments fall \
             after day 0",
        ),
    ] {
        let due = format!(
            "empty.book: column first_payment_day: {words}, by day 10,950: refused by ground 9 \
             in block 2"
        );
        for command in ["append", "preview"] {
            let reason = refusal(&desk, &[command, "empty.book"], &with(changes));
            assert_eq!(reason, due);
        }
    }
    // the day behind it is taken
    let day = ["value_day_1=300", "term=430", "first_payment_day=301"];
    assert_eq!(desk.append("empty.book", &with(&[&day])).status, DONE);
}

#[test]
fn a_file_has_such_a_payment_told_by_its_line() {
    let desk = Desk::with("empty.book");
    let head = "kind,side,phase,cash_curve,security,security_curve,nominal,value_day_1,\
                value_day_2,term,first_payment_day,repo_cash,repo_rate\n";
    let line = |day: u16| format!("pool repo,repo,2,1,single payment,1,5,2,9,7,{day},5,1\n");
    desk.write("trades.csv", [head, &line(3), &line(2), &line(9)].concat());
    assert_eq!(
        desk.refused(&["import", "empty.book", "trades.csv"]),
        "trades.csv: line 3, column first_payment_day: 2 is there, 3 to 10,950 is due: \
         a repo's payments fall after value day 1, by day 10,950: refused by ground 9 in block 2"
    );
}

/// The last payment is the nominal and a tenth of it, more than a flow may be.
#[test]
fn a_payment_that_is_too_large_is_refused_where_it_counts() {
    let large = ["nominal=10000000000"];
    for (refused, day, taken) in [
        (&[&ENDS[..]][..], "730", &[][..]),
        (&[&SETTLED[..]], "1,095", &[&SETTLED[..], &ENDS]),
        (&[&SETTLED_POOL[..]], "1,095", &[&SETTLED_POOL[..], &ENDS]),
    ] {
        let desk = Desk::with("empty.book");
        let [refused, taken] = [refused, taken].map(|changes| changed(&with(changes), &large));
        assert_eq!(
            refusal(&desk, &["append", "empty.book"], &refused),
            format!(
                "empty.book: column nominal: 10,000,000,000.00 is there, less is due: it makes a \
                 payment of 11,000,000,000.00 on day {day}, and a flow is 10,000,000,000.00 at \
                 most: refused by ground 12 in block 2"
            )
        );
        let run = desk.append("empty.book", &taken);
        assert_eq!((run.status, run.err.as_str()), (DONE, ""));
    }
}

#[test]
fn explain_tells_the_rule() {
    let text = Desk::new().done(&["explain", "9"]);
    for line in [
        "\n  a repo's payments fall after value day 1\n",
        "\n  where the first leg has settled, payments fall after day 0\n",
    ] {
        assert!(text.contains(line), "{text}");
    }
    assert!(!text.contains("after value day 2"), "{text}");
}

#[test]
fn a_trade_is_amended_into_its_term_and_told_apart() {
    let desk = desk(&[&["first_payment_day=731"]]);
    std::fs::copy(desk.path("empty.book"), desk.path("before.book")).unwrap();
    let text = desk.done(&["amend", "empty.book", "0", "first_payment_day=365"]);
    let words = "from day 365, 2 payments inside the term, from day 365 to day 730, and 1 after it";
    assert!(text.ends_with(&format!("{words}\n")), "{text}");
    assert_eq!(
        desk.done(&["diff", "before.book", "empty.book", "--csv"]),
        "change,number,column,before,after\n\
         trade amended,0,first_payment_day,731,365\n"
    );
    let reason = refusal(
        &desk,
        &["amend", "empty.book", "0"],
        &["first_payment_day=0".into()],
    );
    let due = "empty.book: column first_payment_day: 0 is there, 1 to 10,220 is due: ";
    assert!(reason.starts_with(due), "{reason}");
    let text = desk.done(&["strike", "empty.book", "0"]);
    assert!(text.ends_with(&format!("{words}\n")), "{text}");
    let diff = desk.done(&["diff", "before.book", "empty.book"]);
    assert!(!diff.contains("inside the term"), "{diff}");
}

#[test]
fn they_leave_and_come_back_as_text() {
    let desk = desk(&[]);
    for form in [&[][..], &["--semicolon"]] {
        let trades = [&["export", "empty.book", "trades.csv", "--force"], form].concat();
        desk.done(&trades);
        desk.copy("empty.book", "other.book");
        desk.done(&["import", "other.book", "trades.csv"]);
        assert_eq!(desk.read("other.book"), desk.read("empty.book"));
    }
}

/// The words of a command line.
fn split(command: &str) -> Vec<&str> {
    command.split_whitespace().collect()
}

/// A desk with the book of the templates, and the repo that the help shows.
fn newcomer() -> (Desk, String) {
    let desk = Desk::started();
    let mut examples = commands(&desk.done(&["append", "--help"])).into_iter();
    let repo = examples.find(|command| command.contains("kind=specified_repo"));
    (desk, repo.unwrap())
}

#[test]
fn a_new_user_enters_the_repo_of_the_help() {
    let (desk, repo) = newcomer();
    let words = ", 1 payment inside the term, on day 60, and 4 after it";
    let looked = desk.done(&split(&repo.replacen("append", "preview", 1)));
    assert!(
        looked.contains(&format!("{words}; nothing is changed\n")),
        "{looked}"
    );
    let added = desk.done(&split(&repo));
    assert!(
        added.starts_with("desk.book: trade 8 is added: repo member in a specified repo, phase 1"),
        "{added}"
    );
    assert!(added.ends_with(&format!("{words}\n")), "{added}");
    let shown = desk.done(&["show", "desk.book"]);
    let flow = "\n 60      1    -244,000.00  payment of the security inside the term\n";
    assert!(shown.contains(flow), "{shown}");
    let ladder = desk.done(&["flows", "desk.book", "--curve", "1"]);
    assert!(
        ladder.contains("  payment inside the term, payment\n"),
        "{ladder}"
    );
}

#[test]
fn a_new_user_amends_and_strikes_the_repo_of_the_help() {
    let (desk, repo) = newcomer();
    let without = desk.done(&["margin", "desk.book"]);
    desk.done(&split(&repo));
    let with = desk.done(&["margin", "desk.book"]);
    desk.done(&split("amend desk.book 8 first_payment_day=94"));
    assert!(!desk
        .done(&["show", "desk.book"])
        .contains("inside the term"));
    let later = desk.done(&["margin", "desk.book"]);
    assert!(with != without && later != with && later != without);
    let struck = desk.done(&["strike", "desk.book", "8"]);
    assert!(!struck.contains("inside the term"), "{struck}");
    assert_eq!(desk.done(&["margin", "desk.book"]), without);
}
