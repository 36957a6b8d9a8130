//! Books on the command line: made, looked at, edited and margined.

#![forbid(unsafe_code)]

mod arguments;
mod commands;
mod compared;
mod current_day;
mod ended;
mod figures;
mod files;
mod parallel;
mod printed;
mod trades;

use arguments::Arguments;
use clap::error::ErrorKind;
use clap::Parser;
use ended::Ended;
use printed::print;
use std::process::ExitCode;

fn main() -> ExitCode {
    let ended = match Arguments::try_parse() {
        Ok(arguments) => commands::run(arguments.command),
        Err(error) => help_or_misuse(&error),
    };
    ExitCode::from(ended.unwrap_or_else(|ended| ended.told()))
}

/// Help and the version are asked for; all else is wrong usage.
fn help_or_misuse(error: &clap::Error) -> Result<u8, Ended> {
    let text = error.to_string();
    if !error.use_stderr() {
        print::result(&text)?;
        return Ok(ended::DONE);
    }
    if error.kind() == ErrorKind::DisplayHelpOnMissingArgumentOrSubcommand {
        return Err(Ended::Misused(format!(
            "no command is given\n\n{}",
            text.trim_end()
        )));
    }
    let text = text.trim_end().trim_start_matches("error: ");
    Err(Ended::Misused(seddolki_store::in_sentence(text)))
}
