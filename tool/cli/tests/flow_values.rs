//! Single flows, each with its present value.

mod tool;

use serde_json::Value;
use tool::{changed, commands, example, outright, Desk, DONE};

/// At 100% on every day: a year halves an amount.
const HALVING: &str = "account 7\ncurve TRY\nsteps 0 0 0\nranges 0 0 0\n\
                       node 365 100 0 0 0\nnode 730 100 0 0 0\n";

/// A desk whose book has one payment, at its nominal, on that curve.
fn paying(side: &str, nominal: &str, day: u64) -> Desk {
    let desk = Desk::new();
    desk.write("curve.txt", HALVING);
    desk.done(&["new", "bill.book", "curve.txt"]);
    let [side, nominal] = [format!("side={side}"), format!("nominal={nominal}")];
    let day = format!("first_payment_day={day}");
    let other = [&side[..], &nominal, &day, "clean_price=100"];
    let run = desk.append("bill.book", &changed(&outright(1), &other));
    assert_eq!((run.status, run.err.as_str()), (DONE, ""));
    desk
}

/// The flows of a book, one by one.
fn values(desk: &Desk, book: &str) -> Vec<Value> {
    let tables = desk.tables(&["flows", "--values", book]);
    tables["values"].as_array().unwrap().clone()
}

fn hundredths(value: &Value) -> i64 {
    let digits = value.as_str().unwrap().replace('.', "");
    digits.parse().unwrap()
}

/// A half of 10.01 is 5.005.
#[test]
fn exactly_a_half_goes_up_received_and_paid() {
    let text = paying("buyer", "10.01", 365).done(&["flows", "--values", "bill.book"]);
    assert_eq!(
        text,
        "account 7, valuation day 16 November 2026\n\
         \n\
         curve  currency  position  day  amount      rate  present value  tolerance  flow\n\
         \x20   1  TRY              0    0  -10.01  100.0000         -10.01       0.00  settlement cash\n\
         \x20   1  TRY              0  365  +10.01  100.0000          +5.01       0.01  payment\n"
    );
    let text = paying("seller", "10.01", 365).done(&["flows", "--values", "bill.book"]);
    let line =
        "\n    1  TRY              0  365  -10.01  100.0000          -5.01       0.01  payment\n";
    assert!(text.ends_with(line), "{text}");
}

/// In two years a quarter is left, in thirty the 2^30th part.
#[test]
fn a_payment_is_worth_the_nearest_and_paid_minus_that() {
    for (nominal, day, due) in [
        ("0.01", 365, 1),
        ("0.01", 366, 0),
        ("0.01", 730, 0),
        ("0.02", 730, 1),
        ("9.99", 365, 500),
        ("10.01", 730, 250),
        ("10.02", 730, 251),
        ("10.03", 730, 251),
        ("10000000000.00", 10_950, 931),
    ] {
        for (side, sign) in [("buyer", 1), ("seller", -1)] {
            let rows = values(&paying(side, nominal, day), "bill.book");
            let payment = &rows[1];
            assert_eq!(payment["flow"], "payment");
            let found = hundredths(&payment["present_value"]);
            assert_eq!(found, sign * due, "{side} {nominal} {day}");
        }
    }
}

/// 4,772,807.02 hundredths at the rate of day 170 and 94,227,174.84 at that of
/// day 350: what the bootstrap says the bond is worth.
#[test]
fn a_bond_is_worth_its_payments_each_rounded() {
    let desk = Desk::new();
    desk.done(&["new", "handbook.book", &example("handbook-curve.txt")]);
    let bond = "nominal=1000000 first_payment_day=170 period=180 payments=2 coupon=5";
    let lengthen = "bootstrap handbook.book --curve 1 --cash 990000 --components 1 0 0";
    let words = |text: &'static str| text.split(' ').collect::<Vec<_>>();
    let worth = desk.tables(&[words(lengthen), words(bond)].concat());
    let bought = [&["security=coupons"][..], &words(bond)].concat();
    let run = desk.append("handbook.book", &changed(&outright(1), &bought));
    assert_eq!((run.status, run.err.as_str()), (DONE, ""));
    let rows = values(&desk, "handbook.book");
    let payments = ["amount", "rate", "present_value"].map(|name| [&rows[1][name], &rows[2][name]]);
    assert_eq!(
        payments,
        [
            ["50000.00", "1050000.00"],
            ["10.5000", "11.9510"],
            ["47728.07", "942271.75"],
        ]
    );
    assert_eq!(worth["values"][0]["value"], "989999.82");
}

/// The rows of a curve.
fn on_curve(rows: &[Value], curve: &Value) -> Vec<Value> {
    let own = rows.iter().filter(|row| &row["curve"] == curve);
    own.cloned().collect()
}

#[test]
fn the_flows_of_a_curve_add_up_to_its_base_and_tolerance() {
    for name in ["desk.book", "repo.book", "buyer.book"] {
        let desk = Desk::with(name);
        let rows = values(&desk, name);
        for curve in desk.tables(&["margin", name])["curves"].as_array().unwrap() {
            let own = on_curve(&rows, &curve["curve"]);
            let sum = |column: &str| own.iter().map(|row| hundredths(&row[column])).sum::<i64>();
            let found = ["present_value", "tolerance"].map(sum);
            let due = ["base", "tolerance"].map(|column| hundredths(&curve[column]));
            assert_eq!(found, due, "{name} {}", curve["curve"]);
        }
    }
}

#[test]
fn they_are_the_flows_that_show_lists_by_curve_and_day() {
    let desk = Desk::with("desk.book");
    let key = |row: &Value| ["curve", "day", "position", "amount"].map(|name| row[name].clone());
    let rows = values(&desk, "desk.book");
    let order = |row: &Value| ["curve", "day", "position"].map(|name| row[name].as_u64().unwrap());
    assert!(rows.is_sorted_by_key(order));
    let shown = desk.tables(&["show", "desk.book"])["flows"].clone();
    let mut shown = shown.as_array().unwrap().clone();
    shown.sort_by_key(order);
    let keys = |rows: &[Value]| rows.iter().map(key).collect::<Vec<_>>();
    assert_eq!(keys(&rows), keys(&shown));
    let second = desk.tables(&["flows", "--values", "desk.book", "--curve", "2"]);
    assert_eq!(
        second["values"].as_array().unwrap(),
        &on_curve(&rows, &2.into())
    );
}

#[test]
fn a_book_of_any_day_is_taken_and_its_day_is_said() {
    let desk = Desk::new();
    let text = desk.done(&["flows", "--values", &example("buyer.book")]);
    assert!(
        text.starts_with("account 7, valuation day 1 January 2000\n"),
        "{text}"
    );
    let text = desk.done(&["flows", "--values", &example("empty.book")]);
    assert!(text.ends_with("\n\nno cash flows\n"), "{text}");
}

#[test]
fn the_help_says_how_they_are_rounded_and_its_commands_run_as_written() {
    let desk = Desk::with("desk.book");
    let help = desk.done(&["flows", "--help"]);
    let words = "to the nearest hundredth, a half up.";
    for text in [&help, &desk.done(&["man"])] {
        let joined = text.split_whitespace().collect::<Vec<_>>().join(" ");
        assert!(joined.contains(words), "{text}");
    }
    let mut commands = commands(&help);
    commands.retain(|command| command.starts_with("flows --values"));
    assert_eq!(commands.len(), 2, "{help}");
    for command in commands {
        desk.done(&command.split_whitespace().collect::<Vec<_>>());
    }
}
