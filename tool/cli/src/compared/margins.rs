//! A book's margin before and after.

use crate::printed::{account_on, Table, Value};
use seddolki::{CurrencyFigures, CurveFigures, Date, Report};
use seddolki_format::report::currency_name;
use seddolki_text::decimal::MONEY;

/// Two reports of books that have the same curves and valuation day.
pub struct Margins {
    pub day: Date,
    pub before: Report,
    pub after: Report,
}

const CURRENCIES: &str = "account valuation_day currency \
    initial_before initial_after initial_difference total_before total_after total_difference \
    variation_before variation_after variation_difference";

const CURVES: &str = "account valuation_day curve currency base_before base_after base_difference \
    worst_loss_before worst_loss_after worst_loss_difference scenario_before scenario_after \
    tolerance_before tolerance_after tolerance_difference";

/// The figures of a currency or of a curve.
struct Part {
    /// What it is called, in cells and for people.
    cells: Vec<Value>,
    name: String,
    figures: Vec<Figure>,
}

/// A figure by its name, before and after.
type Figure = (&'static str, [Value; 2]);

impl Margins {
    /// A row for each currency, and one for each curve.
    pub fn tables(&self) -> [Table; 2] {
        let mut tables = [
            Table::new("currencies", CURRENCIES),
            Table::new("curves", CURVES),
        ];
        for (table, parts) in tables.iter_mut().zip(self.parts()) {
            for part in parts {
                let book = [Value::Id(self.after.account), Value::date(self.day)];
                let cells = |(_, figures): Figure| {
                    let difference = difference(&figures);
                    figures.into_iter().chain(difference)
                };
                let figures = part.figures.into_iter().flat_map(cells);
                table.push(book.into_iter().chain(part.cells).chain(figures));
            }
        }
        tables
    }

    /// What changes, a line for each figure; below it what stays as it was, a
    /// line for each currency and curve.
    pub fn text(&self) -> String {
        let columns = vec!["", "before", "after", "difference"];
        let mut changes = Table::with("changes", columns);
        let mut texts = vec![account_on(self.after.account, self.day) + "\n"];
        let mut same = vec![];
        for parts in self.parts() {
            let (changed, kept): (Vec<Part>, Vec<Part>) =
                parts.into_iter().partition(Part::is_changed);
            for part in changed {
                part.push_lines(&mut changes);
            }
            same.extend(unchanged(kept));
        }
        texts.extend((!changes.rows.is_empty()).then(|| changes.text()));
        texts.extend(same.iter().map(Table::text));
        texts.join("\n")
    }

    /// The currencies and the curves.
    fn parts(&self) -> [Vec<Part>; 2] {
        let [before, after] = [&self.before, &self.after];
        let currencies = before.present_currencies().zip(after.present_currencies());
        let currencies = currencies.map(|((name, a), (_, b))| currency(name, [a, b]));
        let curves = before.present_curves().zip(after.present_curves());
        let curves = curves.map(|((id, a), (_, b))| curve(id, [a, b]));
        [currencies.collect(), curves.collect()]
    }
}

fn currency(name: &str, both: [&CurrencyFigures; 2]) -> Part {
    Part {
        cells: vec![Value::text(name)],
        name: name.into(),
        figures: vec![
            ("initial", both.map(|figures| Value::money(figures.initial))),
            ("total", both.map(|figures| Value::money(figures.total))),
            (
                "variation",
                both.map(|figures| Value::money(figures.variation)),
            ),
        ],
    }
}

fn curve(id: usize, both: [&CurveFigures; 2]) -> Part {
    let currency = currency_name(both[1].currency);
    Part {
        cells: vec![Value::count(id), Value::text(currency)],
        name: format!("curve {id}, {currency}"),
        figures: vec![
            ("base", both.map(|figures| Value::money(figures.base))),
            (
                "worst_loss",
                both.map(|figures| Value::money(figures.worst_loss)),
            ),
            (
                "scenario",
                both.map(|figures| Value::whole(figures.scenario)),
            ),
            (
                "tolerance",
                both.map(|figures| Value::money(figures.tolerance)),
            ),
        ],
    }
}

/// A scenario has no difference.
fn difference([before, after]: &[Value; 2]) -> Option<Value> {
    match (before, after) {
        (Value::Decimal(before, MONEY), Value::Decimal(after, MONEY)) => {
            Some(Value::Signed(after - before, MONEY))
        }
        _ => None,
    }
}

impl Part {
    fn is_changed(&self) -> bool {
        let mut figures = self.figures.iter();
        figures.any(|(_, [before, after])| before != after)
    }

    /// Its name, and a line for each figure; a blank line behind another's.
    fn push_lines(self, table: &mut Table) {
        let nothing = || Value::Nothing;
        if !table.rows.is_empty() {
            table.push([nothing(), nothing(), nothing(), nothing()]);
        }
        table.push([Value::text(self.name), nothing(), nothing(), nothing()]);
        for (name, figures) in self.figures {
            let (name, difference) = (name.replace('_', " "), difference(&figures).into());
            let [before, after] = figures;
            table.push([Value::text(name), before, after, difference]);
        }
    }
}

/// Parts of one kind that stay as they were, if there are any.
fn unchanged(parts: Vec<Part>) -> Option<Table> {
    let names = parts.first()?.figures.iter().map(|(name, _)| *name);
    let columns = ["unchanged"].into_iter().chain(names).collect();
    let mut table = Table::with("unchanged", columns);
    for part in parts {
        let figures = part.figures.into_iter().map(|(_, [_, after])| after);
        table.push([Value::text(part.name)].into_iter().chain(figures));
    }
    Some(table)
}
