//! What one book has and another has not.

use crate::printed::{Table, Value};
use crate::trades::{cells, words};
use seddolki::Record;
use seddolki_format::block::{Curve, Node};
use seddolki_format::record::RECORD;
use seddolki_format::report::currency_name;
use seddolki_model::accept::Book;
use seddolki_text::decimal::COEFFICIENT;
use seddolki_text::COLUMNS;
use similar::{capture_diff_slices, Algorithm, DiffTag};
use std::collections::BTreeSet;

/// Trades at the same place that differ in no more columns than these are
/// one trade amended.
const AMENDED: usize = 3;

/// A row for each difference: the account, the valuation day, the curves, then
/// the trades.
pub fn differences(before: &Book, after: &Book) -> Table {
    let columns = "change number column before after";
    let mut rows = Rows(Table::new("differences", columns));
    let accounts = [before, after].map(|book| Value::Id(book.account));
    rows.change(("account", None), "account", accounts);
    let days = [before, after].map(|book| Value::date(book.valuation_day));
    rows.change(("valuation day", None), "valuation_day", days);
    for place in 0..before.curves.len().max(after.curves.len()) {
        let curves = [before, after].map(|book| book.curves.get(place));
        rows.curve(place + 1, curves);
    }
    rows.trades(&before.trades, &after.trades);
    rows.0
}

/// What changed, and its number.
type What = (&'static str, Option<usize>);

struct Rows(Table);

impl Rows {
    /// Nothing where both are the same.
    fn change(&mut self, (what, number): What, column: &str, values: [Value; 2]) {
        if values[0] == values[1] {
            return;
        }
        let column = Some(column).filter(|column| !column.is_empty());
        let place = [
            Value::text(what),
            number.map(Value::count).into(),
            column.map(Value::text).into(),
        ];
        self.0.push(place.into_iter().chain(values));
    }

    fn curve(&mut self, id: usize, curves: [Option<&Curve>; 2]) {
        let what = ("curve", Some(id));
        let cell = |of: &dyn Fn(&Curve) -> Value| curves.map(|c| c.map_or(Value::Nothing, of));
        let currency = |curve: &Curve| Value::text(currency_name(curve.currency.into()));
        self.change(what, "currency", cell(&currency));
        for (i, component) in (0..3).zip(1..) {
            let steps = |curve: &Curve| Value::whole(curve.steps[i]);
            self.change(what, &format!("steps_{component}"), cell(&steps));
            let range = |curve: &Curve| Value::Decimal(curve.ranges[i].into(), COEFFICIENT);
            self.change(what, &format!("range_{component}"), cell(&range));
        }
        let nodes = curves.map(|curve| curve.map_or(&[][..], Curve::nodes));
        let days: BTreeSet<u16> = nodes.concat().iter().map(|node| node.day).collect();
        for day in days {
            self.node(what, day, nodes.map(|nodes| on_day(nodes, day)));
        }
    }

    fn node(&mut self, what: What, day: u16, nodes: [Option<&Node>; 2]) {
        let cell = |of: &dyn Fn(&Node) -> Value| nodes.map(|n| n.map_or(Value::Nothing, of));
        let rate = |node: &Node| Value::percent(node.rate);
        self.change(what, &format!("rate of day {day}"), cell(&rate));
        for (i, component) in (0..3).zip(1..) {
            let column = format!("component_{component} of day {day}");
            let moved = |node: &Node| Value::percent(node.components[i]);
            self.change(what, &column, cell(&moved));
        }
    }

    /// What is left when the longest list of trades that both have, in one
    /// order, is taken out.
    fn trades(&mut self, before: &[Record], after: &[Record]) {
        let bytes = |trade: &Record| <[u8; RECORD]>::from(*trade);
        let [old, new] = [before, after].map(|all| all.iter().map(bytes).collect::<Vec<_>>());
        for change in capture_diff_slices(Algorithm::Myers, &old, &new) {
            if change.tag() != DiffTag::Equal {
                let (gone, come) = (change.old_range(), change.new_range());
                self.replaced((gone.start, &before[gone]), (come.start, &after[come]));
            }
        }
    }

    /// Trades from a position on in place of others, one by one: amended where
    /// two at the same place are nearly the same.
    fn replaced(&mut self, (first, gone): (usize, &[Record]), come: (usize, &[Record])) {
        for i in 0..gone.len().max(come.1.len()) {
            let (struck, added) = (gone.get(i), come.1.get(i));
            let number = Some(first + i);
            let both = struck
                .zip(added)
                .map(|(struck, added)| differing(struck, added));
            if let Some(columns) = both.filter(|columns| columns.len() <= AMENDED) {
                for (column, values) in columns {
                    self.change(("trade amended", number), column, values);
                }
                continue;
            }
            let words = |trade: Option<&Record>| trade.map(|t| Value::text(words::trade(t))).into();
            self.change(
                ("trade struck", number),
                "",
                [words(struck), Value::Nothing],
            );
            let number = Some(come.0 + i);
            self.change(("trade added", number), "", [Value::Nothing, words(added)]);
        }
    }
}

fn on_day(nodes: &[Node], day: u16) -> Option<&Node> {
    nodes.iter().find(|node| node.day == day)
}

/// The columns in which two trades differ, with both values.
fn differing(before: &Record, after: &Record) -> Vec<(&'static str, [Value; 2])> {
    let names = COLUMNS.iter().map(|column| column.name);
    let values = cells(before).into_iter().zip(cells(after));
    let all = names.zip(values).map(|(name, (a, b))| (name, [a, b]));
    all.filter(|(_, [a, b])| a != b).collect()
}
