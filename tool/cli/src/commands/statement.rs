//! The account statement on paper.

use crate::arguments::Statement;
use crate::current_day::CurrentDay;
use crate::ended::Ended;
use crate::files::{accepted_on, outputs};
use crate::printed::pdf;

pub fn run(arguments: &Statement) -> Result<(), Ended> {
    let day = CurrentDay::of(arguments.on)?;
    let (path, output) = (&arguments.to, &arguments.output);
    if arguments.pdf {
        outputs::refuse_standard_output(path, "--pdf")?;
    }
    let file = accepted_on(day, &arguments.book)?;
    let page = file.statement()?;
    let bytes = if arguments.pdf {
        pdf::of_text(&page)?
    } else {
        page.into_bytes()
    };
    outputs::write_told(path, bytes, output, &[&file.input], &file.in_words())
}
