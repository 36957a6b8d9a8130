//! The margin of books as a dealer reads it.

use crate::arguments::Margin;
use crate::current_day::CurrentDay;
use crate::ended::Ended;
use crate::files::{accepted_on, one_stream, BookFile};
use crate::printed::{over_books, Table, Value};
use seddolki::{CurrencyFigures, Report};
use seddolki_format::report::{currency_name, CURRENCIES};
use seddolki_model::scenario::scenarios;
use std::path::Path;

/// A book's report.
struct Margined {
    file: BookFile,
    report: Report,
}

pub fn run(arguments: &Margin) -> Result<u8, Ended> {
    let day = CurrentDay::of(arguments.on)?;
    let paths = &arguments.books;
    one_stream(paths)?;
    let (margined, worst) = over_books(paths, |path| margined(day, path))?;
    let tables = [curves(&margined), currencies(&margined), totals(&margined)];
    let form = arguments.form;
    form.print(&tables, |tables| match &margined[..] {
        [] => String::new(),
        [Margined { file, .. }] if paths.len() == 1 => of_one(file, tables),
        _ => of_several(day, tables),
    })?;
    Ok(worst)
}

fn margined(day: CurrentDay, path: &Path) -> Result<Margined, Ended> {
    let file = accepted_on(day, path)?;
    let report = file.margin()?;
    Ok(Margined { file, report })
}

fn of_one(file: &BookFile, [curves, currencies, _]: &[Table; 3]) -> String {
    let own = ["book", "account", "valuation_day"];
    let (curves, currencies) = (curves.text_without(&own), currencies.text_without(&own));
    format!("{}\n\n{curves}\n{currencies}", file.in_words())
}

fn of_several(day: CurrentDay, [_, currencies, totals]: &[Table; 3]) -> String {
    let day = day.date.in_words();
    let currencies = currencies.text_without(&["valuation_day"]);
    format!("valuation day {day}\n\n{currencies}\n{}", totals.text())
}

fn curves(margined: &[Margined]) -> Table {
    let columns = "book account valuation_day curve currency base worst_loss scenario \
                   coefficient_1 coefficient_2 coefficient_3 tolerance";
    let mut table = Table::new("curves", columns);
    for Margined { file, report } in margined {
        for ((id, figures), curve) in report.present_curves().zip(&file.parts.curves) {
            let coefficients = scenarios(curve)[figures.scenario as usize];
            let mut row = book_cells(file).to_vec();
            row.extend([
                Value::count(id),
                Value::text(currency_name(figures.currency)),
                Value::money(figures.base),
                Value::money(figures.worst_loss),
                Value::whole(figures.scenario),
            ]);
            row.extend(coefficients.map(Value::coefficient));
            row.push(Value::money(figures.tolerance));
            table.push(row);
        }
    }
    table
}

fn book_cells(file: &BookFile) -> [Value; 3] {
    [
        Value::text(&file.name),
        Value::Id(file.parts.account),
        Value::date(file.parts.valuation_day),
    ]
}

fn currencies(margined: &[Margined]) -> Table {
    let columns = "book account valuation_day currency initial variation total";
    let mut table = Table::new("currencies", columns);
    for Margined { file, report } in margined {
        for (name, figures) in report.present_currencies() {
            let book = book_cells(file).into_iter().chain([Value::text(name)]);
            table.push(book.chain(amounts(figures).map(Value::money)));
        }
    }
    table
}

fn amounts(figures: &CurrencyFigures) -> [i128; 3] {
    [figures.initial, figures.variation, figures.total].map(i128::from)
}

/// The sums over all books, by currency.
fn totals(margined: &[Margined]) -> Table {
    let mut table = Table::new("totals", "currency books initial variation total");
    for currency in CURRENCIES {
        let all = margined.iter().flat_map(|m| m.report.present_currencies());
        let own: Vec<[i128; 3]> = all
            .filter(|(name, _)| *name == currency)
            .map(|(_, figures)| amounts(figures))
            .collect();
        if !own.is_empty() {
            let sum = |i: usize| own.iter().map(|amounts| amounts[i]).sum::<i128>();
            let head = [Value::text(currency), Value::count(own.len())];
            table.push(head.into_iter().chain([0, 1, 2].map(sum).map(Value::money)));
        }
    }
    table
}
