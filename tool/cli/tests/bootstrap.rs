//! A curve lengthened by a bond's price.

mod tool;

use seddolki_format::block::{Curve, Node, BLOCK};
use seddolki_format::layout::Layout;
use tool::{commands, example, Desk, DONE, FAILED, LENGTHEN, MISUSED, REFUSED};

/// The handbook's bond, of a million.
const HANDBOOK: &str = "bootstrap handbook.book --curve 1 --cash 990000 --components 1 0 0 \
                        nominal=1000000 first_payment_day=170 period=180 payments=2 coupon=5";

fn words(command: &str) -> Vec<&str> {
    command.split_whitespace().collect()
}

/// A desk with the handbook's curve.
fn handbook() -> Desk {
    let desk = Desk::new();
    desk.done(&["new", "handbook.book", &example("handbook-curve.txt")]);
    desk
}

fn nodes(bytes: &[u8]) -> Vec<Node> {
    Curve::decode(&bytes[BLOCK..]).nodes().to_vec()
}

#[test]
fn the_handbook_s_curve_is_lengthened_by_its_bond() {
    let desk = handbook();
    let before = desk.read("handbook.book");
    let text = desk.done(&words(HANDBOOK));
    assert_eq!(
        text,
        "handbook.book: curve 1 is lengthened to day 350 by 1,000,000.00 nominal with 2 coupons \
         of 5.0000% each 180 days from day 170, for 990,000.00 on 16 November 2026\n\
         \n\
         day     rate  component 1       2       3\n\
         350  11.9510      +1.0000  0.0000  0.0000\n\
         \n\
         \x20  rate       value        cash  difference\n\
         11.9510  989,999.82  990,000.00       -0.18\n\
         11.9509  990,000.63  990,000.00       +0.63\n"
    );
    let after = desk.read("handbook.book");
    let node = Node {
        day: 350,
        rate: 119_510,
        components: [10_000, 0, 0],
    };
    assert_eq!(nodes(&after), [&nodes(&before)[..], &[node]].concat());
    assert_eq!(after[..BLOCK], before[..BLOCK]);
    assert_eq!(after[2 * BLOCK..], before[2 * BLOCK..]);
    assert!(desk.done(&["check", "handbook.book"]).contains("accepted"));
    let curves = desk.done(&["export", "--curves", "handbook.book"]);
    assert!(curves.contains("\nnode 350     11.9510"), "{curves}");
}

#[test]
fn a_dry_run_shows_the_same_and_leaves_the_book() {
    let desk = handbook();
    let before = desk.read("handbook.book");
    for form in [&[][..], &["--json"], &["--csv"], &["--semicolon"]] {
        let arguments = [&words(HANDBOOK)[..], form].concat();
        let dry = desk.done(&[&arguments[..], &["--dry-run"]].concat());
        assert_eq!(desk.read("handbook.book"), before);
        let done = desk.done(&arguments);
        assert_ne!(desk.read("handbook.book"), before);
        let (words, due) = match form {
            [] => (
                dry.replace("would be", "is")
                    .replace("; nothing is changed", ""),
                done,
            ),
            _ => (dry, done),
        };
        assert_eq!(words, due);
        desk.write("handbook.book", &before);
    }
    let command = HANDBOOK.replace("handbook.book", "-");
    let run = desk.shell(&format!(
        "\"$0\" {command} --day $DAY --dry-run < handbook.book"
    ));
    assert_eq!(run.status, DONE, "{}", run.err);
    assert!(run
        .out
        .starts_with("standard input: curve 1 would be lengthened"));
    assert_eq!(desk.run(&words(&command)).status, MISUSED);
    assert_eq!(desk.files(), ["handbook.book"]);
}

#[test]
fn a_dry_run_draws_the_curve_before_and_after() {
    let desk = handbook();
    let before = desk.read("handbook.book");
    let draw = [&words(HANDBOOK)[..], &["--dry-run", "--plot", "longer.svg"]].concat();
    desk.done(&draw);
    let picture = String::from_utf8(desk.read("longer.svg")).unwrap();
    for text in [
        "Curve 1 of account 4, TRY: lengthened by a bond&apos;s price",
        "1,000,000.00 nominal with 2 coupons of 5.0000% each 180 days from day 170, \
         for 990,000.00 on 16 November 2026",
        "new node: day 350, rate 11.9510%, components +1.0000% 0.0000% 0.0000%",
        "the curve before",
        "the curve after",
        "cash flows, TRY",
    ] {
        assert!(picture.contains(text), "{text}");
    }
    desk.ended(FAILED, &draw);
    desk.done(&[&draw[..], &["--force"]].concat());
    assert_eq!(desk.read("handbook.book"), before);
    assert_eq!(desk.files(), ["handbook.book", "longer.svg"]);
}

/// The handbook's command is refused if a word gives way to another, with
/// this said and by this ground, and nothing is written.
fn refused(word: &str, other: &str, said: &str, ground: &str) {
    let desk = handbook();
    let before = desk.read("handbook.book");
    let command = HANDBOOK.replace(word, other);
    assert_ne!(command, HANDBOOK, "{word}");
    for dry in ["", " --dry-run"] {
        let reason = desk.refused(&words(&format!("{command}{dry}")));
        assert!(reason.starts_with("handbook.book: "), "{reason}");
        assert!(reason.contains(said), "{reason}\n{said}");
        let by = format!(": refused by ground {ground}");
        assert!(reason.ends_with(&by), "{reason}\n{by}");
    }
    assert_eq!(desk.read("handbook.book"), before);
    assert_eq!(desk.files(), ["handbook.book"]);
}

/// Words of the command, what is keyed in their place, what is said of it, and
/// the ground.
const REFUSALS: &str = "\
--curve 1 | --curve 2 | --curve: 2 is there, 1 is due: the book has curve 1 in TRY | 8
first_payment_day=170 | first_payment_day=0 | column first_payment_day: 0 is there | 9
period=180 | period=367 | column period: 367 is there, 1 to 366 is due | 9
payments=2 | payments=121 | column payments: 121 is there | 9
coupon=5 | coupon=100.0001 | column coupon: 100.0001% is there | 10
nominal=1000000 | nominal=0 | column nominal: 0.00 is there, 0.01 to | 10
nominal=1000000 | nominal=10000000000 | column nominal: 10,000,000,000.00 is there, less is due | 12
components 1 0 0 | components 100.0001 0 0 | --components: 100.0001% is there | 6
components 1 0 0 | components 1 0 -101 | how far component 3 moves the node | 6
--cash 990000 | --cash 0 | --cash: 0.00 is there, 0.01 to | 10
--cash 990000 | --cash 10000000001 | --cash: 10,000,000,001.00 is there | 10
period=180 | period=153 | after day 323, the curve's last node | 17
--cash 990000 | --cash 587897.98 | --cash: 587,897.98 is there, 587,897.99 to 1,097,728.07 is due | 18
--cash 990000 | --cash 1097728.08 | --cash: 1,097,728.08 is there | 18
";

#[test]
fn what_the_engine_refuses_is_told_by_option_or_column_and_ground() {
    for line in REFUSALS.lines() {
        let cells: Vec<&str> = line.split(" | ").collect();
        let [word, other, said, ground] = cells[..] else {
            panic!("{line}");
        };
        refused(word, other, said, ground);
    }
}

#[test]
fn a_curve_with_all_its_nodes_is_refused() {
    let desk = Desk::new();
    let node = |day: u32| format!("node {day} 10 1 0 0\n");
    let nodes: String = (1..=24).map(node).collect();
    let curve = format!("account 4\ncurve TRY\nsteps 1 0 0\nranges 1 0 0\n{nodes}");
    desk.write("curve.txt", curve);
    desk.done(&["new", "handbook.book", "curve.txt"]);
    let before = desk.read("handbook.book");
    let reason = desk.refused(&words(HANDBOOK));
    assert_eq!(
        reason,
        "handbook.book: --curve: 1 is there, another is due: this one has 24 nodes, and no curve \
         has more: refused by ground 17"
    );
    assert_eq!(desk.read("handbook.book"), before);
}

/// The rates that are shown for a cash, each with the bond's value.
fn shown(cash: &str) -> Vec<String> {
    let command = HANDBOOK.replace("990000", cash);
    let text = handbook().done(&words(&format!("{command} --csv")));
    let rows = text.lines().filter(|line| line.starts_with("values,"));
    let cells = |row: &str| {
        let cells: Vec<&str> = row.split(',').collect();
        format!("{} {}", cells[3], cells[7])
    };
    rows.map(cells).collect()
}

#[test]
fn rates_go_from_0_to_all_and_below_0_there_is_none() {
    assert_eq!(shown("1097728.07"), ["0.0000 1097728.07"]);
    let [at, below] = &shown("1097728.06")[..] else {
        panic!("two rates are due");
    };
    assert!(at.starts_with("0.0001 "), "{at}");
    assert_eq!(below, "0.0000 1097728.07");
    let [at, below] = &shown("587897.99")[..] else {
        panic!("two rates are due");
    };
    assert_eq!(at, "100.0000 587897.99");
    assert!(below.starts_with("99.9999 587898."), "{below}");
}

#[test]
fn what_is_no_number_is_told_at_once() {
    let desk = handbook();
    let before = desk.read("handbook.book");
    let run = desk.run(&words(
        "bootstrap handbook.book --curve 1 --cash much --components 1 x 0.00001 \
         nominal=1,5 period=-1 payments=2 payments=3",
    ));
    assert_eq!((run.status, run.out.as_str()), (REFUSED, ""));
    let lines: Vec<&str> = run.err.lines().collect();
    for (line, due) in lines.iter().zip([
        "column nominal: 1,5 is not a number with a decimal point: write 1.50",
        "column first_payment_day: nothing is given: 1 to 10,950 days from the valuation day",
        "column period: -1 is too small: 1 to 366",
        "column payments: it is given twice: 2 and 3",
        "column coupon: nothing is given: 0.0000 to 100.0000",
        "--cash: much is not a number: 0.01 to 10,000,000,000.00",
        "--components: x is not a number: -100.0000 to 100.0000",
        "--components: 0.00001 has more than 4 decimals: -100.0000 to 100.0000",
    ]) {
        assert_eq!(*line, format!("seddolki: handbook.book: {due}"));
    }
    assert_eq!(lines.len(), 8, "{}", run.err);
    assert_eq!(desk.read("handbook.book"), before);
}

#[test]
fn a_bond_has_columns_of_its_own() {
    let desk = handbook();
    let reason = desk.refused(&words(&format!("{HANDBOOK} kind=outright")));
    let all = "nominal, first_payment_day, period, payments or coupon";
    assert_eq!(reason, format!("there is no column kind: {all}"));
    let reason = desk.refused(&words(&HANDBOOK.replace("coupon=", "cupon=")));
    assert_eq!(reason, "there is no column cupon: is coupon meant?");
}

#[test]
fn wrong_usage_is_told_so() {
    let desk = handbook();
    for (word, other) in [
        ("--curve 1", ""),
        ("--curve 1", "--curve first"),
        ("--cash 990000", ""),
        ("--components 1 0 0", ""),
        (
            "--components 1 0 0",
            "--components 1 0 0 --components 1 0 0",
        ),
        ("coupon=5", "coupon"),
        ("coupon=5", "coupon=5 --plot longer.svg"),
        ("coupon=5", "coupon=5 --dry-run --force"),
        ("coupon=5", "coupon=5 --dry-run --plot -"),
        ("coupon=5", "coupon=5 --json --csv"),
    ] {
        let run = desk.run(&words(&HANDBOOK.replace(word, other)));
        assert_eq!((run.status, run.out.as_str()), (MISUSED, ""), "{other}");
    }
    assert_eq!(desk.files(), ["handbook.book"]);
}

#[test]
fn a_lock_is_waited_for() {
    let desk = Desk::with("desk.book");
    let before = desk.read("desk.book");
    let held = desk.lock();
    let run = desk.run(&[&LENGTHEN[..], &["--wait", "0"]].concat());
    assert_eq!((run.status, run.out.as_str()), (FAILED, ""));
    assert_eq!(desk.read("desk.book"), before);
    // a dry run writes nothing
    desk.done(&[&LENGTHEN[..], &["--wait", "0", "--dry-run"]].concat());
    drop(held);
    desk.done(&LENGTHEN);
}

#[test]
fn the_help_shows_commands_that_run_as_written() {
    let desk = Desk::new();
    desk.done(&["template", "curves", "curves.txt"]);
    desk.done(&["new", "desk.book", "curves.txt"]);
    let commands = commands(&desk.done(&["bootstrap", "--help"]));
    assert_eq!(commands.len(), 2, "{commands:?}");
    for command in &commands {
        let text = desk.done(&words(command));
        assert!(text.contains("lengthened to day 3,760"), "{text}");
    }
    assert_eq!(desk.files(), ["curves.txt", "desk.book", "longer.svg"]);
}
