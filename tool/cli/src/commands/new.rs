//! A new book of curves alone.

use crate::arguments::New;
use crate::current_day::CurrentDay;
use crate::ended::Ended;
use crate::files::{book_of, is_dash, patience, read_curves, text};
use crate::printed::{account_on, print};
use seddolki_format::text::count;
use seddolki_store::{self as store, shown};

pub fn run(arguments: &New) -> Result<(), Ended> {
    let day = CurrentDay::of(arguments.on)?.date;
    let input = text(&arguments.curves)?;
    let file = read_curves(&input)?;
    let book = book_of(&input.name, &file, day, &[])?;
    if is_dash(&arguments.book) {
        return Ok(store::print(book.as_bytes())?);
    }
    let patience = patience(arguments.waiting);
    store::create(&arguments.book, book.as_bytes(), &patience)?;
    let count = count(file.curves.len(), "curve");
    let (name, account) = (shown(&arguments.book), account_on(file.account, day));
    print::notice(&format!("{name}: {account}, {count}, no trades"));
    Ok(())
}
