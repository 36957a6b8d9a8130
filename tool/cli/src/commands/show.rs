//! The curves and trades of a book, in words.

use crate::arguments::Show;
use crate::ended::Ended;
use crate::figures::node_table;
use crate::files::accepted;
use crate::printed::{account_on, Table, Value};
use crate::trades::{cells, flows_of, signed, words, TermPayments};
use seddolki::Record;
use seddolki_format::block::Curve;
use seddolki_format::report::currency_name;
use seddolki_format::text::count;
use seddolki_model::accept::Book;
use seddolki_model::scenario::scenarios;
use seddolki_text::decimal::{format as decimal, COEFFICIENT, MONEY};
use seddolki_text::COLUMNS;

pub fn run(arguments: &Show) -> Result<(), Ended> {
    let book = accepted(&arguments.book)?.parts;
    let flows = flow_table(book.trades.iter().enumerate());
    let nodes = node_table(book.curves.iter().map(|curve| (curve, curve.nodes())));
    let tables = [curves(&book), nodes, trades(&book), flows];
    arguments.form.print(&tables, |_| text(&book))
}

fn text(book: &Book) -> String {
    let mut text = account_on(book.account, book.valuation_day) + "\n";
    text.extend(book.curves.iter().map(show_curve));
    for (position, record) in book.trades.iter().enumerate() {
        text += &show_trade(position, record);
    }
    if book.trades.is_empty() {
        text += "\nno trades\n";
    }
    text
}

fn show_curve(curve: &Curve) -> String {
    let components = curve.steps.iter().zip(&curve.ranges);
    let components: Vec<String> = components
        .map(|(steps, range)| format!("{steps} up to {}", decimal(*range, COEFFICIENT)))
        .collect();
    let head = format!(
        "\ncurve {}, {}, {}, steps {}\n",
        curve.id,
        currency_name(curve.currency.into()),
        count(scenarios(curve).len(), "scenario"),
        components.join(", ")
    );
    head + &node_table([(curve, curve.nodes())]).text_without(&["curve"])
}

fn show_trade(position: usize, record: &Record) -> String {
    let mut head = format!("\ntrade {position}: {}\n", words::agreed(record));
    head.extend(words::inside_term(record).map(|words| words + "\n"));
    let table = flow_table([(position, record)]);
    match table.rows[..] {
        [] => head + "no cash flows\n",
        _ => head + &table.text_without(&["position"]),
    }
}

fn curves(book: &Book) -> Table {
    let columns = "account valuation_day curve currency scenarios steps_1 steps_2 steps_3 \
                   range_1 range_2 range_3";
    let mut table = Table::new("curves", columns);
    for curve in &book.curves {
        let mut row = vec![
            Value::Id(book.account),
            Value::date(book.valuation_day),
            Value::Id(curve.id.into()),
            Value::text(currency_name(curve.currency.into())),
            Value::count(scenarios(curve).len()),
        ];
        row.extend(curve.steps.map(|steps| Value::whole(steps)));
        let range = |range: u16| Value::Decimal(range.into(), COEFFICIENT);
        row.extend(curve.ranges.map(range));
        table.push(row);
    }
    table
}

/// The columns are those that append and import take, and those of the term.
fn trades(book: &Book) -> Table {
    let term = "payments_in_term first_in_term last_in_term payments_after_term";
    let names = COLUMNS.iter().map(|column| column.name);
    let columns = ["position"].into_iter().chain(names).chain(term.split(' '));
    let mut table = Table::with("trades", columns.collect());
    for (position, record) in book.trades.iter().enumerate() {
        let trade = [Value::count(position)].into_iter().chain(cells(record));
        table.push(trade.chain(term_cells(record)));
    }
    table
}

fn term_cells(record: &Record) -> [Value; 4] {
    let payments = TermPayments::of(record);
    let inside = payments.as_ref().map(|payments| &payments.inside);
    let day = |day: &u64| Value::whole(*day);
    [
        inside.map(|days| Value::count(days.len())),
        inside.and_then(|days| days.first()).map(day),
        inside.and_then(|days| days.last()).map(day),
        payments
            .as_ref()
            .map(|payments| Value::count(payments.after)),
    ]
    .map(Value::from)
}

fn flow_table<'a>(trades: impl IntoIterator<Item = (usize, &'a Record)>) -> Table {
    let mut table = Table::new("flows", "position day curve amount flow");
    for (position, record) in trades {
        for (kind, flow) in flows_of(record) {
            table.push([
                Value::count(position),
                Value::whole(flow.day),
                Value::Id(flow.curve.into()),
                Value::Signed(signed(&flow), MONEY),
                Value::text(kind.in_words()),
            ]);
        }
    }
    table
}
