//! Several books in one call.

mod tool;

use tool::{Desk, DONE, FAILED, MISUSED, REFUSED};

fn desk_with_books() -> Desk {
    let desk = Desk::new();
    for name in ["buyer.book", "seller.book", "desk.book"] {
        desk.copy(name, name);
    }
    desk
}

#[test]
fn margins_of_several_books_have_totals() {
    let desk = desk_with_books();
    let text = desk.done(&["margin", "buyer.book", "seller.book", "desk.book"]);
    let lines: Vec<&str> = text.lines().collect();
    assert_eq!(lines[..2], ["valuation day 16 November 2026", ""]);
    assert!(lines[2].starts_with("book "), "{text}");
    let words: Vec<&str> = lines[3].split_whitespace().collect();
    let figures = ["buyer.book", "7", "TRY", "300.00", "100.00", "-200.00"];
    assert_eq!(words, figures, "{text}");
    // of buyer.book and seller.book alone: 300 + 200, 100 - 100, -200 - 300
    let pair = desk.done(&["margin", "buyer.book", "seller.book", "--csv"]);
    assert!(
        pair.contains("\ntotals,,,,,TRY,,,,,,,,500.00,0.00,-500.00,2\n"),
        "{pair}"
    );
}

#[test]
fn a_bad_book_does_not_stop_the_others_and_the_worst_status_counts() {
    let desk = desk_with_books();
    desk.write("bad.book", [0; 1024]);
    let run = desk.run(&["margin", "buyer.book", "bad.book", "desk.book"]);
    assert_eq!(run.status, REFUSED);
    assert!(
        run.out.contains("buyer.book") && run.out.contains("desk.book"),
        "{}",
        run.out
    );
    assert!(
        run.err
            .starts_with("seddolki: bad.book: header (block 0), field check: "),
        "{}",
        run.err
    );
    let run = desk.run(&["margin", "bad.book", "no.book", "desk.book"]);
    assert_eq!(run.status, FAILED);
    assert_eq!(run.err.lines().count(), 2);
    assert!(run.out.contains("desk.book"));
    let run = desk.run(&["check", "buyer.book", "bad.book", "seller.book"]);
    assert_eq!(run.status, REFUSED);
    assert_eq!(run.out.lines().count(), 2);
    let run = desk.run(&["margin", "bad.book"]);
    assert_eq!((run.status, run.out.as_str()), (REFUSED, ""));
}

#[test]
fn a_book_counts_once() {
    let desk = desk_with_books();
    std::fs::hard_link(desk.path("desk.book"), desk.path("hard.book")).unwrap();
    for (command, name) in [("margin", "./desk.book"), ("check", "hard.book")] {
        let reason = desk.ended(MISUSED, &[command, "desk.book", name]);
        assert_eq!(reason, format!("{name} is named twice"));
    }
}

#[test]
fn a_bar_is_drawn_on_a_terminal_alone() {
    let desk = desk_with_books();
    let run = desk.run(&["margin", "buyer.book", "desk.book"]);
    assert_eq!((run.status, run.err.as_str()), (DONE, ""));
    // `script` gives its command a terminal
    let run = desk
        .shell("script -qec \"'$0' margin --day $DAY buyer.book desk.book seller.book\" /dev/null");
    assert_eq!(run.status, DONE, "{}", run.err);
    assert!(run.out.contains("of 3 books"), "{:?}", run.out);
}

#[test]
fn many_books_are_margined_as_each_alone() {
    let desk = desk_with_books();
    let copies: Vec<String> = (0..40).map(|i| format!("{i}.book")).collect();
    for name in &copies {
        std::fs::copy(desk.path("desk.book"), desk.path(name)).unwrap();
    }
    let arguments = [vec!["margin".to_owned(), "--csv".into()], copies].concat();
    let text = desk.done(&arguments);
    let alone = desk.done(&["margin", "--csv", "desk.book"]);
    for row in alone.lines().filter(|row| row.contains(",desk.book,")) {
        for i in [0, 17, 39] {
            let own = row.replace(",desk.book,", &format!(",{i}.book,"));
            assert!(text.contains(&format!("{own}\n")), "{own}\n{text}");
        }
    }
}

#[test]
fn tables_are_there_for_programs_also_where_every_book_is_refused() {
    let desk = Desk::new();
    desk.write("bad.book", [0; 1024]);
    let run = desk.run(&["margin", "--json", "bad.book"]);
    let tables: serde_json::Value = serde_json::from_str(&run.out).unwrap();
    assert_eq!(
        (run.status, tables["curves"].as_array().unwrap().len()),
        (REFUSED, 0)
    );
    let run = desk.run(&["check", "--json", "bad.book"]);
    let tables: serde_json::Value = serde_json::from_str(&run.out).unwrap();
    let row = &tables["books"][0];
    assert_eq!(
        (&row["accepted"], &row["ground"]),
        (&false.into(), &2.into())
    );
}
