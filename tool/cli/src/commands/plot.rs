//! Pictures of a curve.

use crate::arguments::Plot;
use crate::ended::Ended;
use crate::figures::{chart_nodes, curve, ladder, valued, CurveLosses};
use crate::files::{accepted, outputs, BookFile};
use seddolki::CurveFigures;
use seddolki_chart::{Heading, Losses, Node, Rates};
use seddolki_format::block::Curve;
use seddolki_format::report::currency_name;
use seddolki_format::text::count;
use seddolki_model::accept::Book;
use seddolki_model::scenario::{scenarios, stressed_nodes, Scenario};
use seddolki_text::decimal::{format as decimal, format_signed, COEFFICIENT, MONEY};

pub fn run(arguments: &Plot) -> Result<(), Ended> {
    let file = accepted(&arguments.book)?;
    let curve = curve(&file, arguments.curve)?;
    let picture = match arguments.losses {
        true => losses(&file, curve)?,
        false => rates(&file, curve)?,
    };
    let scenarios = count(scenarios(curve).len(), "scenario");
    let holds = format!("curve {}, {scenarios}", curve.id);
    let (path, output) = (&arguments.file, &arguments.output);
    outputs::write_told(path, picture, output, &[&file.input], &holds)
}

/// The words above a picture.
fn heading(book: &Book, curve: &Curve, figures: &CurveFigures, all: &[Scenario]) -> Heading {
    let currency = currency_name(figures.currency);
    let [base, loss] = [figures.base, figures.worst_loss].map(|amount| decimal(amount, MONEY));
    let (id, account, day) = (curve.id, book.account, book.valuation_day.in_words());
    let (scenarios, worst) = (count(all.len(), "scenario"), figures.scenario);
    let coefficients = all[worst as usize].map(|c| format_signed(c, COEFFICIENT));
    let coefficients = coefficients.join(" ");
    Heading {
        curve: format!("{id} of account {account} on {day}"),
        currency,
        lines: [
            format!("base {base} {currency}, worst loss {loss} {currency}"),
            format!("worst of {scenarios}: scenario {worst}, coefficients {coefficients}"),
        ],
    }
}

fn rates(file: &BookFile, curve: &Curve) -> Result<String, Ended> {
    let figures = file.margin()?.curves[usize::from(curve.id) - 1];
    let scenarios = scenarios(curve);
    let stressed = |scenario| chart_nodes(&stressed_nodes(curve.nodes(), scenario));
    let stressed: Vec<Vec<Node>> = scenarios.iter().map(stressed).collect();
    let flows = ladder(&file.parts.flows_on(curve));
    let picture = Rates {
        heading: heading(&file.parts, curve, &figures, &scenarios),
        base: &chart_nodes(curve.nodes()),
        stressed: &stressed,
        worst: &stressed[figures.scenario as usize],
        flows: &flows,
    };
    Ok(picture.draw())
}

fn losses(file: &BookFile, curve: &Curve) -> Result<String, Ended> {
    let all = valued(file, &[curve])?;
    let CurveLosses {
        figures,
        scenarios,
        losses,
        ..
    } = &all[0];
    let heading = heading(&file.parts, curve, figures, scenarios);
    Ok(Losses { heading, losses }.draw())
}
