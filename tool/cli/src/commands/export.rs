//! A book as text that can be read back.

use crate::arguments::Export;
use crate::ended::Ended;
use crate::files::{accepted, outputs};
use seddolki_format::text::count;
use seddolki_text::{curve_file, trades_file, Separator};

pub fn run(arguments: &Export) -> Result<(), Ended> {
    let file = accepted(&arguments.book)?;
    let parts = &file.parts;
    let (text, holds) = if arguments.curves {
        let text = curve_file::write(parts.account, &parts.curves);
        (text, count(parts.curves.len(), "curve"))
    } else {
        let separators = [Separator::Comma, Separator::Semicolon];
        let separator = separators[usize::from(arguments.semicolon)];
        let text = trades_file::write(&parts.trades, separator);
        (text, count(parts.trades.len(), "trade"))
    };
    let (path, output) = (&arguments.file, &arguments.output);
    outputs::write_told(path, text, output, &[&file.input], &holds)
}
