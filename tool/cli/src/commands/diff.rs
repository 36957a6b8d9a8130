//! What two books differ in.

use crate::arguments::Diff;
use crate::compared::differences;
use crate::ended::Ended;
use crate::files::{accepted, one_stream};

pub fn run(arguments: &Diff) -> Result<(), Ended> {
    one_stream(&[&arguments.book, &arguments.other])?;
    let (before, after) = (accepted(&arguments.book)?, accepted(&arguments.other)?);
    let table = differences(&before.parts, &after.parts);
    let form = arguments.form;
    form.print(&[table], |[table]| match table.rows[..] {
        [] => format!("{} and {} hold the same\n", before.name, after.name),
        _ => table.text(),
    })
}
