//! Trades added to the book in a file, after a look where one is asked for.

use crate::arguments::{Adding, Append, Edited, Import};
use crate::current_day::CurrentDay;
use crate::ended::Ended;
use crate::files::{accepted_on, edit_on, is_dash, refuse_dash};
use crate::printed::{is_answered_yes, print};
use crate::trades::NewTrades;
use seddolki::Book;
use std::path::Path;

/// One trade, by its columns.
pub fn append(arguments: &Append) -> Result<(), Ended> {
    let day = CurrentDay::of(arguments.edited.on)?;
    let trade = NewTrades::keyed(&arguments.edited.book, day, &arguments.values)?;
    add(&arguments.edited, &trade, arguments.adding)
}

/// The trades of a file.
pub fn import(arguments: &Import) -> Result<(), Ended> {
    let both = arguments.adding.preview && is_dash(&arguments.trades);
    let reason = "with --preview standard input has the answer, and not the trades";
    Ended::misused(both, reason)?;
    let day = CurrentDay::of(arguments.edited.on)?;
    let trades = NewTrades::of_file(&arguments.edited.book, day, &arguments.trades)?;
    add(&arguments.edited, &trades, arguments.adding)
}

fn add(edited: &Edited, trades: &NewTrades, adding: Adding) -> Result<(), Ended> {
    refuse_dash(&edited.book)?;
    let look = || agreed(&edited.book, trades, adding.again);
    let looked_at = adding.preview.then(look).transpose()?;
    let (first, told) = edit_on(trades.day, edited, |book, parts| {
        // another command may have edited the book since it was shown
        if looked_at
            .as_ref()
            .is_some_and(|shown| shown.as_bytes() != book.as_bytes())
        {
            let reason = "was changed since it was shown; nothing is added";
            return Err(Ended::Failed(format!("{}: {reason}", trades.book)));
        }
        let told = trades.add_to(book, &parts, adding.again)?;
        Ok((parts.trades.len(), told))
    })?;
    print::notice(&trades.in_words(first, true));
    if looked_at.is_none() {
        told.say();
    }
    Ok(())
}

/// The book that was shown with the trades, if they are to be added to it.
/// Its folder is not locked while a person thinks.
fn agreed(path: &Path, trades: &NewTrades, again: bool) -> Result<Book, Ended> {
    let file = accepted_on(trades.day, path)?;
    // what an edit would refuse is not asked for
    let told = trades.add_to(&mut file.book.clone(), &file.parts, again)?;
    let margins = trades.margins(&file)?;
    let head = trades.in_words(file.parts.trades.len(), false);
    print::result(&format!("{head}\n\n{}", margins.text()))?;
    told.say();
    let question = match trades.count() {
        0 => return Ok(file.book),
        1 => "Add this trade?".into(),
        trades => format!("Add these {trades} trades?"),
    };
    if is_answered_yes(&question)? {
        return Ok(file.book);
    }
    let reason = "nothing is added: the answer is not yes";
    Err(Ended::refused(format!("{}: {reason}", trades.book)))
}
