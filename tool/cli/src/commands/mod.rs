//! The commands. Where they look at several books they give the worst status.

mod add;
mod amend;
mod bootstrap;
mod check;
mod completions;
mod curves;
mod diff;
mod explain;
mod export;
mod flows;
mod losses;
mod man;
mod margin;
mod new;
mod plot;
mod preview;
mod show;
mod statement;
mod strike;
mod template;

use crate::arguments::Command;
use crate::ended::{Ended, DONE};

pub fn run(command: Command) -> Result<u8, Ended> {
    match command {
        Command::Check(arguments) => return check::run(&arguments),
        Command::Margin(arguments) => return margin::run(&arguments),
        Command::Template(arguments) => template::run(&arguments),
        Command::New(arguments) => new::run(&arguments),
        Command::Append(arguments) => add::append(&arguments),
        Command::Import(arguments) => add::import(&arguments),
        Command::Preview(arguments) => preview::run(&arguments),
        Command::Amend(arguments) => amend::run(&arguments),
        Command::Strike(arguments) => strike::run(&arguments),
        Command::Curves(arguments) => curves::run(&arguments),
        Command::Bootstrap(arguments) => bootstrap::run(&arguments),
        Command::Show(arguments) => show::run(&arguments),
        Command::Statement(arguments) => statement::run(&arguments),
        Command::Flows(arguments) => flows::run(&arguments),
        Command::Losses(arguments) => losses::run(&arguments),
        Command::Diff(arguments) => diff::run(&arguments),
        Command::Export(arguments) => export::run(&arguments),
        Command::Plot(arguments) => plot::run(&arguments),
        Command::Explain(arguments) => explain::run(&arguments),
        Command::Completions(arguments) => completions::run(&arguments),
        Command::Man => man::run(),
    }?;
    Ok(DONE)
}
