//! Columns of one trade changed.

use crate::arguments::Amend;
use crate::current_day::CurrentDay;
use crate::ended::Ended;
use crate::files::edit_on;
use crate::printed::print;
use crate::trades::{faults_told, named_values, record_refused, words, Told};
use seddolki::{Book, Ground, Record};
use seddolki_doubles::{doubles_at, Placed};
use seddolki_format::assemble;
use seddolki_model::accept;
use seddolki_store::shown;
use seddolki_text::trade::amend;
use seddolki_text::{trade_columns, Column, Decimals};

pub fn run(arguments: &Amend) -> Result<(), Ended> {
    let day = CurrentDay::of(arguments.edited.on)?;
    let given = named_values(&trade_columns(), &arguments.values)?;
    let position = arguments.position;
    let name = shown(&arguments.edited.book);
    let (record, notes) = edit_on(day, &arguments.edited, |book, mut parts| {
        let record = changed(&name, &parts, position, &given)?;
        parts.trades[position] = record;
        *book = judged(&name, &parts, &record)?;
        let doubles = doubles_at(&parts.trades, position);
        let told = Told::of(&doubles, Placed::to_string);
        Ok((record, told.unless_wrong(vec![], arguments.again)?))
    })?;
    let words = words::trade(&record);
    print::notice(&format!("{name}: trade {position} is now: {words}"));
    notes.say();
    Ok(())
}

/// The trade at a position with the given columns changed.
fn changed(
    name: &str,
    parts: &accept::Book,
    position: usize,
    given: &[(&'static Column, &str)],
) -> Result<Record, Ended> {
    let Some(record) = parts.trades.get(position) else {
        let reason = format!("position {position}: {}", Ground::Position.alone());
        return Err(Ended::refused(format!("{name}: {reason}")));
    };
    amend(record, given, Decimals::Point).map_err(|faults| faults_told(name, &faults))
}

/// The book with the trade in its place, if the engine accepts it.
fn judged(name: &str, parts: &accept::Book, record: &Record) -> Result<Book, Ended> {
    let (account, day) = (parts.account, parts.valuation_day);
    let book = Book::from_bytes(assemble(account, day, &parts.curves, &parts.trades));
    match book.check() {
        Ok(()) => Ok(book),
        Err(refusal) => {
            let reason = record_refused(record, &parts.curves, refusal);
            Err(Ended::refused(format!("{name}: {reason}")))
        }
    }
}
