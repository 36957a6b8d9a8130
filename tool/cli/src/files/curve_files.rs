//! Books from files of curves.

use crate::ended::Ended;
use crate::trades::{book_refused, by_ground, faults_told, where_and_why};
use seddolki::{Book, Date, Record};
use seddolki_format::assemble;
use seddolki_model::{BookFault, Fault};
use seddolki_store::Input;
use seddolki_text::curve_file::{self, CurveFile};

/// The curves of a file; every fault is told with its line.
pub fn read_curves(input: &Input) -> Result<CurveFile, Ended> {
    curve_file::read(&input.bytes).map_err(|faults| faults_told(&input.name, &faults))
}

/// A book of a file's curves and these trades for a day, if the engine
/// accepts it.
pub fn book_of(name: &str, file: &CurveFile, day: Date, trades: &[Record]) -> Result<Book, Ended> {
    let book = Book::from_bytes(assemble(file.account, day, &file.curves, trades));
    let Err(refusal) = book.check() else {
        return Ok(book);
    };
    let fault = where_and_why(&book, refusal);
    let reason = match fault.as_ref().and_then(|fault| line_of(file, fault)) {
        Some((line, fault)) => format!("line {line}, {fault}: {}", by_ground(refusal)),
        None => book_refused(&book, refusal),
    };
    Err(Ended::refused(format!("{name}: {reason}")))
}

/// The line of a fault in a curve, whose block has its number, and the fault.
fn line_of<'a>(file: &CurveFile, fault: &'a BookFault) -> Option<(u64, &'a Fault)> {
    let lines = file.lines.get(fault.block.checked_sub(1)?)?;
    let line = match (fault.node(), fault.fault.field) {
        (Some(place), _) => *lines.nodes.get(place)?,
        (None, "steps") => lines.steps,
        (None, "ranges") => lines.ranges,
        _ => lines.curve,
    };
    Some((line, &fault.fault))
}
