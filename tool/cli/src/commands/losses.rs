//! Losses by scenario, and by trade.

use crate::arguments::Losses;
use crate::current_day::CurrentDay;
use crate::ended::Ended;
use crate::figures::{chosen_curves, curve_cells, valued, CurveLosses};
use crate::files::{accepted_on, BookFile};
use crate::printed::{Table, Value};
use crate::trades::words;

pub fn run(arguments: &Losses) -> Result<(), Ended> {
    let day = CurrentDay::of(arguments.on)?;
    let file = accepted_on(day, &arguments.book)?;
    let curves = chosen_curves(&file, arguments.curve)?;
    let valued = valued(&file, &curves)?;
    let form = arguments.form;
    if arguments.trades {
        let tables = [by_trade(&file, &valued), sums(&file, &valued)];
        form.print(&tables, |tables| text(&file, tables))?;
    } else {
        let tables = [by_scenario(&file, &valued)];
        form.print(&tables, |tables| text(&file, tables))?;
    }
    Ok(())
}

fn text(file: &BookFile, tables: &[Table]) -> String {
    let text = |table: &Table| table.text_without(&["valuation_day"]);
    let tables: Vec<String> = tables.iter().map(text).collect();
    format!("{}\n\n{}", file.in_words(), tables.join("\n"))
}

fn by_scenario(file: &BookFile, valued: &[CurveLosses]) -> Table {
    let columns = "valuation_day curve currency scenario coefficient_1 coefficient_2 \
                   coefficient_3 loss worst";
    let mut table = Table::new("losses", columns);
    for one in valued {
        for (scenario, (coefficients, loss)) in one.scenarios.iter().zip(&one.losses).enumerate() {
            let mut row = curve_cells(file, one.curve).to_vec();
            row.push(Value::count(scenario));
            row.extend(coefficients.map(Value::coefficient));
            let worst = scenario == one.figures.scenario as usize;
            row.extend([Value::money(*loss), Value::Flag(worst)]);
            table.push(row);
        }
    }
    table
}

fn by_trade(file: &BookFile, valued: &[CurveLosses]) -> Table {
    let columns = "valuation_day curve currency scenario position base loss trade";
    let mut table = Table::new("trades", columns);
    for one in valued {
        for share in one.shares(file) {
            let trade = &file.parts.trades[share.position];
            let cells = [
                Value::whole(one.figures.scenario),
                Value::count(share.position),
                Value::money(share.base),
                Value::money(share.loss),
                Value::text(words::trade(trade)),
            ];
            table.push(curve_cells(file, one.curve).into_iter().chain(cells));
        }
    }
    table
}

/// The figures of each curve, to which its trades add up.
fn sums(file: &BookFile, valued: &[CurveLosses]) -> Table {
    let columns = "valuation_day curve currency scenario base loss";
    let mut table = Table::new("curves", columns);
    for CurveLosses { curve, figures, .. } in valued {
        let cells = [
            Value::whole(figures.scenario),
            Value::money(figures.base),
            Value::money(figures.worst_loss),
        ];
        table.push(curve_cells(file, curve).into_iter().chain(cells));
    }
    table
}
