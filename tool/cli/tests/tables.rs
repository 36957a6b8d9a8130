//! The layouts of JSON and CSV are those that tool/README.md documents.

mod tool;

use serde_json::Value;
use std::collections::BTreeMap;
use tool::Desk;

const README: &str = include_str!("../../README.md");

/// Command and table, with the table's columns, as documented.
fn documented() -> BTreeMap<(String, String), Vec<String>> {
    let rows = README.lines().filter_map(|line| line.strip_prefix("| `"));
    let mut tables = BTreeMap::new();
    for row in rows {
        let cells: Vec<&str> = row.split('|').map(str::trim).collect();
        if let [command, table, columns, ""] = cells[..] {
            let columns = columns
                .split(", ")
                .map(|name| name.trim_matches('`').to_owned());
            let key = (
                command.trim_matches('`').to_owned(),
                table.trim_matches('`').to_owned(),
            );
            tables.insert(key, columns.collect());
        }
    }
    tables
}

/// The arguments of each command that prints a table with rows.
fn commands() -> Vec<(&'static str, Vec<&'static str>)> {
    vec![
        ("bootstrap", [&tool::LENGTHEN[..], &["--dry-run"]].concat()),
        ("check", vec!["check", "doubled.book"]),
        (
            "check --doubles",
            vec!["check", "--doubles", "doubled.book"],
        ),
        (
            "preview",
            vec!["preview", "desk.book", "--trades", "seller.csv"],
        ),
        ("show", vec!["show", "desk.book"]),
        ("margin", vec!["margin", "desk.book", "buyer.book"]),
        ("flows", vec!["flows", "desk.book"]),
        ("flows --values", vec!["flows", "--values", "desk.book"]),
        ("losses", vec!["losses", "desk.book"]),
        ("losses --trades", vec!["losses", "--trades", "desk.book"]),
        ("diff", vec!["diff", "desk.book", "buyer.book"]),
    ]
}

fn desk() -> Desk {
    let desk = Desk::with("desk.book");
    std::fs::copy(tool::example("seller.csv"), desk.path("seller.csv")).unwrap();
    for name in ["buyer.book", "doubled.book"] {
        desk.copy("buyer.book", name);
    }
    desk.run(&[
        "import",
        "doubled.book",
        &tool::example("buyer.csv"),
        "--again",
    ]);
    desk
}

fn json(desk: &Desk, arguments: &[&str]) -> Value {
    let text = desk.done(&[arguments, &["--json"]].concat());
    serde_json::from_str(&text).unwrap()
}

#[test]
fn every_table_is_documented_with_its_columns() {
    let (desk, mut left) = (desk(), documented());
    for (command, arguments) in commands() {
        for (table, rows) in json(&desk, &arguments).as_object().unwrap() {
            let first = rows[0]
                .as_object()
                .unwrap_or_else(|| panic!("{command} {table}"));
            let columns: Vec<String> = first.keys().cloned().collect();
            let due = left.remove(&(command.to_owned(), table.clone()));
            assert_eq!(due, Some(columns), "{command} {table}");
        }
    }
    assert!(left.is_empty(), "{left:?}");
}

/// A cell as CSV writes it.
fn plain(value: &Value) -> String {
    match value {
        Value::Null => String::new(),
        Value::String(text) => text.clone(),
        other => other.to_string(),
    }
}

fn csv_rows(text: &str, separator: u8) -> Vec<BTreeMap<String, String>> {
    let mut reader = csv::ReaderBuilder::new()
        .delimiter(separator)
        .from_reader(text.as_bytes());
    let names = reader.headers().unwrap().clone();
    let row = |record: csv::StringRecord| {
        let cells = names.iter().zip(record.iter());
        cells
            .map(|(name, cell)| (name.to_owned(), cell.to_owned()))
            .collect()
    };
    reader
        .records()
        .map(|record| row(record.unwrap()))
        .collect()
}

#[test]
fn csv_has_the_rows_of_json_in_the_same_order() {
    let desk = desk();
    for (command, arguments) in commands() {
        let text = desk.done(&[&arguments[..], &["--csv"]].concat());
        let rows = csv_rows(&text, b',');
        let tables = json(&desk, &arguments);
        let tables = tables.as_object().unwrap();
        let objects: Vec<(&String, &Value)> = tables
            .iter()
            .flat_map(|(table, rows)| rows.as_array().unwrap().iter().map(move |row| (table, row)))
            .collect();
        assert_eq!(rows.len(), objects.len(), "{command}");
        for (row, (table, object)) in rows.iter().zip(objects) {
            if tables.len() > 1 {
                assert_eq!(&row["table"], table);
            }
            for (name, value) in object.as_object().unwrap() {
                assert_eq!(row[name], plain(value), "{command} {table} {name}");
            }
        }
    }
}

#[test]
fn semicolons_come_with_decimal_commas() {
    let desk = desk();
    let points = csv_rows(&desk.done(&["margin", "buyer.book", "--csv"]), b',');
    let commas = csv_rows(&desk.done(&["margin", "buyer.book", "--semicolon"]), b';');
    assert_eq!(points[0]["base"], "100.00");
    assert_eq!(commas[0]["base"], "100,00");
    assert_eq!(points.len(), commas.len());
}

#[test]
fn figures_are_exact_texts_and_counts_are_numbers() {
    let margin = json(&desk(), &["margin", "buyer.book"]);
    let curve = &margin["curves"][0];
    assert_eq!((&curve["curve"], &curve["account"]), (&1.into(), &7.into()));
    assert_eq!(
        (&curve["base"], &curve["worst_loss"]),
        (&"100.00".into(), &"300.00".into())
    );
    assert_eq!(
        (&curve["scenario"], &curve["coefficient_1"]),
        (&2.into(), &"3.00".into())
    );
    assert_eq!(margin["currencies"][0]["total"], "-200.00");
}

#[test]
fn only_one_form_can_be_asked_for() {
    let desk = desk();
    for forms in [
        ["--json", "--csv"],
        ["--csv", "--semicolon"],
        ["--json", "--semicolon"],
    ] {
        let run = desk.run(&["margin", "buyer.book", forms[0], forms[1]]);
        assert_eq!(run.status, tool::MISUSED);
    }
}
