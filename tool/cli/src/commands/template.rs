//! Files to start from.

use crate::arguments::{Kind, Template};
use crate::ended::Ended;
use crate::files::outputs;
use seddolki_text::template;

pub fn run(arguments: &Template) -> Result<(), Ended> {
    let (text, holds) = match arguments.kind {
        Kind::Curves => (template::CURVES, "curves to start from"),
        Kind::Trades => (template::TRADES, "trades to start from"),
    };
    outputs::write_told(&arguments.file, text, &arguments.output, &[], holds)
}
