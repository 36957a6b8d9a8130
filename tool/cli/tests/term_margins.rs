//! What repos are worth whose security pays inside the term.

mod tool;

use tool::term_repo::{desk, with, BILL, ENDS, POOL, SETTLED, SETTLED_POOL};
use tool::{example, Desk, DONE};

/// What a curve's figures are, in hundredths, and its worst scenario.
fn figures(desk: &Desk) -> (Vec<String>, u64) {
    let tables = desk.tables(&["margin", "empty.book"]);
    let curve = &tables["curves"][0];
    let names = ["base", "worst_loss", "tolerance"];
    let figure = |name| curve[name].as_str().unwrap().to_owned();
    (
        names.map(figure).into(),
        curve["scenario"].as_u64().unwrap(),
    )
}

/// Scenario 0 is at 0%, scenario 2 at 100%. Each flow behind today adds 0.01 to
/// the tolerance.
#[test]
fn margins_worked_by_hand() {
    let reverse = ["side=reverse repo"];
    for (changes, base, loss, scenario, tolerance) in [
        // 1,000 - 80 - 640 - 64; at 0% 1,000 - 100 - 1,000 - 100
        (&[][..], "216.00", "416.00", 0, "0.03"),
        (&[&POOL[..]], "216.00", "416.00", 0, "0.03"),
        // at 100% -1,000 + 50 + 250 + 25
        (&[&reverse[..]], "-216.00", "459.00", 2, "0.03"),
        // 1,000 - 80 - 640 - 704; at 0% 1,000 - 100 - 1,000 - 1,100
        (&[&ENDS[..]], "-424.00", "776.00", 0, "0.03"),
        // 1,000 - 800 - 640; at 0% 1,000 - 1,000 - 1,000
        (&[&BILL[..]], "-440.00", "560.00", 0, "0.02"),
        // -640 + 563.20; at 100% -250 + 137.50
        (&[&SETTLED[..]], "-76.80", "35.70", 2, "0.02"),
        (&[&SETTLED_POOL[..]], "-76.80", "35.70", 2, "0.02"),
        // 640 - 563.20; at 0% 1,000 - 1,100
        (&[&SETTLED[..], &reverse], "76.80", "176.80", 0, "0.02"),
        (&[&SETTLED_POOL[..], &reverse], "0.00", "0.00", 0, "0.00"),
        // -640; at 0% -1,000
        (&[&SETTLED[..], &ENDS], "-640.00", "360.00", 0, "0.01"),
    ] {
        let due = vec![base.to_owned(), loss.to_owned(), tolerance.to_owned()];
        assert_eq!(figures(&desk(changes)), (due, scenario), "{changes:?}");
    }
}

#[test]
fn a_repos_share_in_a_loss_has_them() {
    let desk = desk(&[]);
    let run = desk.append("empty.book", &with(&[&SETTLED, &["value_day_2=365"]]));
    assert_eq!((run.status, run.err.as_str()), (DONE, ""));
    // at 0% the settled one owes 1,000 in place of 800, and is paid 100 and
    // 1,100 in place of 64 and 563.20
    let tables = desk.tables(&["losses", "--trades", "empty.book"]);
    let share = |position: usize| {
        let row = &tables["trades"][position];
        ["base", "loss"].map(|name| row[name].as_str().unwrap().to_owned())
    };
    assert_eq!(share(0), ["216.00", "416.00"]);
    assert_eq!(share(1), ["-172.80", "-372.80"]);
    assert_eq!(tables["curves"][0]["base"], "43.20");
    let words = tables["trades"][0]["trade"].as_str().unwrap();
    let due = ", 2 payments inside the term, from day 365 to day 730, and 1 after it";
    assert!(words.ends_with(due), "{words}");
}

#[test]
fn a_preview_shows_what_an_append_brings() {
    let desk = Desk::with("empty.book");
    let words = |command: &str| {
        let start = [command, "empty.book"].map(str::to_owned);
        [&start[..], &with(&[])].concat()
    };
    let text = desk.done(&words("preview"));
    let sentence = "against 1,000.00 nominal with 3 coupons of 10.0000% each 365 days from day \
                    365, 2 payments inside the term, from day 365 to day 730, and 1 after it";
    let due = format!(
        "{sentence}; nothing is changed\n\
         \n\
         account 7, valuation day 16 November 2026\n\
         \n\
         \x20             before    after  difference\n\
         TRY\n\
         initial         0.00   416.00     +416.00\n\
         total           0.00  -200.00     -200.00\n\
         variation       0.00   216.00     +216.00\n\
         \n\
         curve 1, TRY\n\
         base            0.00   216.00     +216.00\n\
         worst loss      0.00   416.00     +416.00\n\
         scenario           0        0\n\
         tolerance       0.00     0.03       +0.03\n"
    );
    assert!(text.ends_with(&due), "{text}\n{due}");
    let asked = [words("append"), vec!["--preview".into()]].concat();
    let run = desk.run_with("y\n", &asked);
    assert_eq!(
        (run.status, run.err.as_str()),
        (DONE, "Add this trade? [y/N] \n")
    );
    let added = format!("{sentence}\n");
    assert!(run.out.ends_with(&added), "{}", run.out);
    assert_eq!(figures(&desk).0, ["216.00", "416.00", "0.03"]);
}

/// How many bars go up and how many down, beside those of the legend.
fn bars(desk: &Desk, curve: &str) -> [usize; 2] {
    let svg = desk.done(&["plot", "desk.book", curve, "-"]);
    ["#0072B2", "#E69F00"].map(|colour| {
        let bar = |tag: &&str| tag.starts_with("rect ") && tag.contains(colour);
        svg.split('<').filter(bar).count() - 1
    })
}

#[test]
fn a_picture_has_them_on_the_right_side() {
    for (side, bond, cash) in [
        ("side=repo", [0, 2], [1, 1]),
        ("side=reverse repo", [2, 0], [1, 1]),
    ] {
        let desk = Desk::new();
        desk.done(&["new", "desk.book", &example("desk-curves.txt")]);
        let run = desk.append("desk.book", &with(&[&["cash_curve=2", side]]));
        assert_eq!((run.status, run.err.as_str()), (DONE, ""));
        assert_eq!((bars(&desk, "1"), bars(&desk, "2")), (bond, cash), "{side}");
    }
}
