//! One trade removed.

use crate::arguments::Strike;
use crate::current_day::CurrentDay;
use crate::ended::Ended;
use crate::files::edit_on;
use crate::printed::print;
use crate::trades::words::trade;
use seddolki_store::shown;

pub fn run(arguments: &Strike) -> Result<(), Ended> {
    let day = CurrentDay::of(arguments.edited.on)?;
    let position = arguments.position;
    let name = shown(&arguments.edited.book);
    let struck = edit_on(day, &arguments.edited, |book, _| {
        let record = book.read(position);
        book.strike(day.date, position)
            .and(record)
            .map_err(|refusal| Ended::refused(format!("{name}: position {position}: {refusal}")))
    })?;
    let words = trade(&struck);
    print::notice(&format!("{name}: trade {position} is struck: {words}"));
    Ok(())
}
