//! The manual page, made of the same text as the help.

use crate::arguments::{Arguments, DAY, DOUBLES, STATUSES, VALUATION_DAY};
use crate::ended::Ended;
use crate::printed::print;
use clap::{Arg, Command, CommandFactory};

pub fn run() -> Result<(), Ended> {
    print::result(&page(&Arguments::command()))
}

fn page(tool: &Command) -> String {
    let version = tool.get_version().unwrap_or_default();
    let about = text_of(tool.get_about());
    let mut page = format!(
        ".TH SEDDOLKI 1 \"\" \"seddolki {version}\" \"User commands\"\n\
         .SH NAME\nseddolki \\- {}\n\
         .SH SYNOPSIS\n.B seddolki\n.I COMMAND\n[\\fIOPTION\\fR] [\\fIOPERAND\\fR]\n\
         .SH COMMANDS\n",
        escaped(&about)
    );
    for command in tool.get_subcommands() {
        page += &section(command);
    }
    page += &format!(".SH A DAY\n{}", verbatim(DAY));
    page += &format!(".SH VALUATION DAY\n{}\n", escaped(VALUATION_DAY));
    page += &format!(".SH TRADES KEYED TWICE\n{}\n", escaped(DOUBLES));
    page += &format!(".SH EXIT STATUS\n{}", verbatim(STATUSES));
    page
}

/// A command: how it is used, what it does, and its arguments.
fn section(command: &Command) -> String {
    let name = command.get_name();
    let mut named = command.clone().bin_name(format!("seddolki {name}"));
    let usage = named.render_usage().to_string();
    let usage = usage.trim_start_matches("Usage: ").replace('\n', " ");
    let about = text_of(command.get_about());
    let mut text = format!(
        ".SS {}\n.nf\n{}\n.fi\n.PP\n{}.\n",
        escaped(name),
        escaped(&usage),
        escaped(&about)
    );
    let (operands, options): (Vec<&Arg>, Vec<&Arg>) = command
        .get_arguments()
        .partition(|argument| argument.is_positional());
    text.extend(operands.into_iter().chain(options).map(described));
    let more = command.get_after_help().map(ToString::to_string);
    text + &more.map_or(String::new(), |more| verbatim(&more))
}

fn described(argument: &Arg) -> String {
    let value = argument.get_value_names().unwrap_or_default().join(" ");
    let name = match argument.get_long() {
        Some(long) if argument.get_action().takes_values() => format!("--{long} {value}"),
        Some(long) => format!("--{long}"),
        None => value,
    };
    let mut help = text_of(argument.get_help());
    let default = argument.get_default_values().first();
    if let Some(default) = default.filter(|_| argument.get_action().takes_values()) {
        help += &format!(" (default {})", default.to_string_lossy());
    }
    format!(".TP\n\\fB{}\\fR\n{}\n", escaped(&name), escaped(&help))
}

fn verbatim(text: &str) -> String {
    format!(".PP\n.nf\n{}\n.fi\n", escaped(text.trim_end()))
}

fn text_of(text: Option<impl ToString>) -> String {
    text.map_or(String::new(), |text| text.to_string())
}

/// A text as roff shows it to the letter.
fn escaped(text: &str) -> String {
    let line = |line: &str| {
        let line = line.replace('\\', "\\e").replace('-', "\\-");
        match line.chars().next() {
            Some('.' | '\'') => format!("\\&{line}"),
            _ => line,
        }
    };
    text.lines().map(line).collect::<Vec<_>>().join("\n")
}
