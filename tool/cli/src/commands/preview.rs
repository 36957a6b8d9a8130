//! The margin with trades that are not added.

use crate::arguments::Preview;
use crate::current_day::CurrentDay;
use crate::ended::Ended;
use crate::files::accepted_on;
use crate::trades::NewTrades;

pub fn run(arguments: &Preview) -> Result<(), Ended> {
    let day = CurrentDay::of(arguments.on)?;
    let trades = new_trades(arguments, day)?;
    let file = accepted_on(day, &arguments.book)?;
    let margins = trades.margins(&file)?;
    let head = trades.in_words(file.parts.trades.len(), false);
    arguments.form.print(&margins.tables(), |_| {
        format!("{head}; nothing is changed\n\n{}", margins.text())
    })?;
    let told = trades.told(&file.parts.trades, false);
    told.say_beforehand(trades.command());
    Ok(())
}

/// By columns or from a file.
fn new_trades(arguments: &Preview, day: CurrentDay) -> Result<NewTrades, Ended> {
    let book = &arguments.book;
    if let Some(file) = &arguments.trades {
        return NewTrades::of_file(book, day, file);
    }
    NewTrades::keyed(book, day, &arguments.values).map_err(|ended| match ended {
        // --csv FILE is a form of the tables and a column without a value
        Ended::Misused(reason) => {
            let file = "a file of trades is named by --trades FILE";
            Ended::Misused(format!("{reason}; {file}"))
        }
        other => other,
    })
}
