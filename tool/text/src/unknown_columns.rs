//! Names that no column has.

use crate::column::{spelled, Column};
use crate::fault::{shown, Fault};
use seddolki_format::text::listed;
use strsim::normalized_damerau_levenshtein as likeness;

/// How like a column's name another has to be to be taken for a slip: of four
/// letters one may be wrong.
const CLOSE: f64 = 0.7;

/// The faults of names that none of these columns has: one for each that is
/// close to a column's, and one for all others, which lists the columns.
pub(crate) fn no_columns(names: &[&str], columns: &[&Column]) -> Vec<Fault> {
    let (slips, others): (Vec<&str>, Vec<&str>) = names
        .iter()
        .partition(|name| !closest(name, columns).is_empty());
    let slip = |name: &&str| {
        let meant = listed(closest(name, columns), "or");
        Fault::new(format!(
            "there is no column {}: is {meant} meant?",
            shown(name.trim())
        ))
    };
    let mut faults: Vec<Fault> = slips.iter().map(slip).collect();
    if !others.is_empty() {
        faults.push(not_close(&others, columns));
    }
    faults
}

/// The columns whose names are closest, if they are close.
fn closest(name: &str, columns: &[&Column]) -> Vec<&'static str> {
    let name = spelled(name);
    // the search takes time and space by the product of the lengths
    let comparable = |column: &str| name.len() <= 2 * column.len();
    let like = |column: &&str| match comparable(column) {
        true => likeness(&name, column),
        false => 0.0,
    };
    let columns = || columns.iter().map(|column| column.name);
    let most = columns().map(|column| like(&column)).fold(CLOSE, f64::max);
    columns().filter(|column| like(column) >= most).collect()
}

fn not_close(names: &[&str], columns: &[&Column]) -> Fault {
    let visible = |name: &&str| match name.trim() {
        "" => "without a name".into(),
        name => shown(name),
    };
    let names: Vec<String> = names.iter().map(visible).collect();
    let all = columns.iter().map(|column| column.name);
    let (names, all) = (listed(&names, "or"), listed(all, "or"));
    Fault::new(format!("there is no column {names}: {all}"))
}

#[cfg(test)]
mod tests {
    use super::*;
    use crate::columns::trade_columns;

    #[test]
    fn a_slip_is_told_with_what_is_meant() {
        for (name, meant) in [
            ("knd", "kind"),
            (" Sid ", "side"),
            ("cashcurve", "cash_curve"),
            ("clean-price", "clean_price"),
            ("Valueday 1", "value_day_1"),
            ("payment", "payments"),
            ("value_day", "value_day_1 or value_day_2"),
        ] {
            let [fault] = &no_columns(&[name], &trade_columns())[..] else {
                panic!("one fault is due");
            };
            let due = format!("there is no column {}: is {meant} meant?", name.trim());
            assert_eq!(fault.to_string(), due);
        }
    }

    #[test]
    fn other_names_are_told_with_all_columns() {
        let long = "kind".repeat(1_000_000);
        for name in ["price", "maturity", "rate", "isin", "", "x", &long] {
            assert_eq!(closest(name, &trade_columns()), [""; 0], "{}", shown(name));
        }
        let faults = no_columns(&["price", "knd", "", "trm", "a\nb"], &trade_columns());
        let faults: Vec<String> = faults.iter().map(Fault::to_string).collect();
        assert_eq!(faults.len(), 3, "{faults:?}");
        assert_eq!(faults[0], "there is no column knd: is kind meant?");
        assert_eq!(faults[1], "there is no column trm: is term meant?");
        let others = "there is no column price, without a name or a\\nb: kind, side, phase";
        assert!(faults[2].starts_with(others), "{faults:?}");
        assert!(
            faults[2].ends_with("settlement_index or issue_index"),
            "{faults:?}"
        );
    }
}
