//! A curve lengthened by a bond's price.

use crate::arguments::{Bootstrap, Output};
use crate::current_day::CurrentDay;
use crate::ended::Ended;
use crate::figures::Lengthened;
use crate::files::{accepted_on, edit_on, name_of, outputs};
use crate::printed::{print, Table};
use crate::trades::{faults_told, named_values};
use seddolki::{bond_of, Quote};
use seddolki_store::shown;
use seddolki_text::trade::purchase_of;
use seddolki_text::{bond_columns, numbers, Decimals, Fault, Quantity};

pub fn run(arguments: &Bootstrap) -> Result<(), Ended> {
    let day = CurrentDay::of(arguments.edited.on)?;
    let quote = keyed(arguments)?;
    if arguments.dry_run {
        return look(arguments, day, &quote);
    }
    lengthen(arguments, day, &quote)
}

/// Edits the book.
fn lengthen(arguments: &Bootstrap, day: CurrentDay, quote: &Quote) -> Result<(), Ended> {
    let name = shown(&arguments.edited.book);
    let lengthened = edit_on(day, &arguments.edited, |book, parts| {
        Lengthened::by(quote, day.date, &name, book, &parts)
    })?;
    let head = format!("{name}: {}", lengthened.in_words("is"));
    let tables = lengthened.tables();
    let lines = arguments.form.written(&tables, |all| text(&head, all));
    print::notice_lines(&lines);
    Ok(())
}

/// Shows what an edit would do.
fn look(arguments: &Bootstrap, day: CurrentDay, quote: &Quote) -> Result<(), Ended> {
    let file = accepted_on(day, &arguments.edited.book)?;
    let mut book = file.book.clone();
    let lengthened = Lengthened::by(quote, day.date, &file.name, &mut book, &file.parts)?;
    if let Some(path) = &arguments.plot {
        // the tables go there
        outputs::refuse_standard_output(path, "--plot")?;
        let output = Output {
            force: arguments.force,
            waiting: arguments.edited.waiting,
        };
        outputs::write(path, lengthened.picture(), &output, &[&file.input])?;
    }
    let words = lengthened.in_words("would be");
    let head = format!("{}: {words}; nothing is changed", file.name);
    let tables = lengthened.tables();
    arguments.form.print(&tables, |all| text(&head, all))
}

fn text(head: &str, [nodes, values]: &[Table; 2]) -> String {
    let node = nodes.text_without(&["curve"]);
    format!("{head}\n\n{node}\n{}", values.text())
}

/// The quote that was keyed; every fault of it is told.
fn keyed(arguments: &Bootstrap) -> Result<Quote, Ended> {
    let given = named_values(&bond_columns(), &arguments.values)?;
    let bond = purchase_of(&given, Decimals::Point);
    let cash = option("--cash", [Quantity::AMOUNT], &[&arguments.cash]);
    let components: Vec<&str> = arguments.components.iter().map(String::as_str).collect();
    let components = option("--components", [Quantity::COMPONENT; 3], &components);
    match (bond, cash, components) {
        (Ok(bond), Ok([cash]), Ok(components)) => Ok(Quote {
            curve: arguments.curve.into(),
            bond: bond_of(&bond),
            cash,
            components,
        }),
        (bond, cash, components) => {
            let wrong = [bond.err(), cash.err(), components.err()];
            let faults: Vec<Fault> = wrong.into_iter().flatten().flatten().collect();
            Err(faults_told(&name_of(&arguments.edited.book), &faults))
        }
    }
}

/// The numbers of an option.
fn option<T, const N: usize>(
    name: &str,
    quantities: [Quantity; N],
    texts: &[&str],
) -> Result<[T; N], Vec<Fault>>
where
    T: TryFrom<i64> + Copy + Default,
{
    let named = |message| Fault::new(format!("{name}: {message}"));
    numbers(texts, quantities).map_err(|wrong| wrong.into_iter().map(named).collect())
}
