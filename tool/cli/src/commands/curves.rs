//! The curves of a book replaced, and its day with them.

use crate::arguments::Curves;
use crate::current_day::CurrentDay;
use crate::ended::Ended;
use crate::files::{book_of, edit, read_curves, text};
use crate::printed::print;
use seddolki_format::text::count;
use seddolki_model::accept::Book;
use seddolki_store::shown;

pub fn run(arguments: &Curves) -> Result<(), Ended> {
    let day = CurrentDay::of(arguments.edited.on)?;
    let input = text(&arguments.file)?;
    let (file, from) = (read_curves(&input)?, &input.name);
    let name = shown(&arguments.edited.book);
    let before = edit(&arguments.edited, |book, parts| {
        if parts.account != file.account {
            let (account, other) = (parts.account, file.account);
            let reason = format!("{from}: account {other}, and {name} is of account {account}");
            return Err(Ended::refused(reason));
        }
        if !arguments.keep_days {
            refuse_other_dates(&name, &parts, day)?;
        }
        *book = book_of(from, &file, day.date, &parts.trades)?;
        Ok(parts)
    })?;
    let curves = count(before.curves.len(), "curve");
    let trades = count(before.trades.len(), "trade");
    let (now, moved) = (file.curves.len(), moved(&before, day));
    print::notice(&format!(
        "{name}: {curves} replaced by {now}, {trades} kept{moved}"
    ));
    Ok(())
}

/// The days of a trade are other dates where they are counted from another
/// day.
fn refuse_other_dates(name: &str, book: &Book, day: CurrentDay) -> Result<(), Ended> {
    let own = book.valuation_day;
    if own == day.date || book.trades.is_empty() {
        return Ok(());
    }
    let trades = count(book.trades.len(), "trade");
    let words = own.in_words();
    Err(Ended::refused(format!(
        "{name}: the days of its {trades} are counted from {words}, and {day}; say --keep-days \
         if they are to stay as they are and count from the new day, or --day {own} if the \
         book's day is to stay"
    )))
}

/// What became of the book's day, if it is another now.
fn moved(before: &Book, day: CurrentDay) -> String {
    let [own, now] = [before.valuation_day, day.date].map(|date| date.in_words());
    match before.trades.len() {
        _ if before.valuation_day == day.date => String::new(),
        0 => format!("; the book was for {own}, and is now for {now}"),
        _ => format!(
            "; the days of trades stay as they are, counted from {now} now and not from {own}"
        ),
    }
}
