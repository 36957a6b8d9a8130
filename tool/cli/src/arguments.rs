//! The commands and what they take.

use crate::printed::Form;
use clap::{Args, Parser, Subcommand, ValueEnum};
use seddolki::{Date, Ground};
use seddolki_text::curve_file;
use std::path::PathBuf;

/// A text of the help, by the name of its file.
macro_rules! help {
    ($name:literal) => {
        include_str!(concat!("../help/", $name, ".txt"))
    };
}

/// A back office's day, from an empty folder to a margin.
pub const DAY: &str = help!("day");

/// What an exit status says.
pub const STATUSES: &str = help!("statuses");

/// What a valuation day is, and which commands test it.
pub const VALUATION_DAY: &str = help!("valuation_day");

/// Which trades look keyed twice, and what becomes of them.
pub const DOUBLES: &str = help!("doubles");

fn day_and_statuses() -> String {
    format!("A day, from an empty folder to a margin:\n\n{DAY}\nExit status:\n\n{STATUSES}")
}

/// Books of cash flows and their margin
#[derive(Debug, Parser)]
#[command(name = "seddolki", version, after_help = day_and_statuses())]
#[command(subcommand_required = true, arg_required_else_help = true)]
#[command(max_term_width = 80)]
pub struct Arguments {
    #[command(subcommand)]
    pub command: Command,
}

#[derive(Debug, Subcommand)]
pub enum Command {
    /// Write a file of curves or of trades to start from
    Template(Template),
    /// Make a book without trades from a file of curves
    New(New),
    /// Add one trade behind the last
    Append(Append),
    /// Add the trades of a CSV file, all of them or none
    Import(Import),
    /// Show the margin before and after trades that are not added
    Preview(Preview),
    /// Change columns of the trade at a position
    Amend(Amend),
    /// Remove the trade at a position
    Strike(Strike),
    /// Replace the curves of a book, its trades kept
    Curves(Curves),
    /// Lengthen a curve by what a coupon bond costs today
    Bootstrap(Bootstrap),
    /// Say whether books keep every rule
    Check(Check),
    /// List the curves, the trades and their dated cash flows
    Show(Show),
    /// Show the margin by curve and by currency
    Margin(Margin),
    /// Write the account statement, a page of text or a PDF
    Statement(Statement),
    /// Show the net cash flows by day, or the value of each flow
    Flows(Flows),
    /// Show the loss of every scenario, or of every trade
    Losses(Losses),
    /// Tell what two books differ in
    Diff(Diff),
    /// Write the trades of a book as CSV, or its curves
    Export(Export),
    /// Draw a curve and its cash flows, or its losses
    Plot(Plot),
    /// Explain a ground of refusal
    Explain(Explain),
    /// Print completions for a shell
    Completions(Completions),
    /// Print the manual page
    Man,
}

/// The columns of a trade, and which trades use them.
fn columns() -> String {
    let meanings = seddolki_text::meanings(&seddolki_text::trade_columns());
    format!("{meanings}\n{}", seddolki_text::USES)
}

/// The columns of a bond, and what becomes of it.
fn bond_help() -> String {
    let meanings = seddolki_text::meanings(&seddolki_text::bond_columns());
    format!("{meanings}\n{}", help!("bootstrap"))
}

/// Of every command that works on a day.
#[derive(Args, Clone, Copy, Debug)]
pub struct OnDay {
    /// The day to work on, as 2026-11-15, in place of today
    #[arg(long, value_name = "DATE")]
    pub day: Option<Date>,
}

/// Of every command that writes into a folder.
#[derive(Args, Clone, Copy, Debug)]
pub struct Waiting {
    /// How long to wait for another command that is writing there
    #[arg(long, value_name = "SECONDS", default_value_t = 10, value_parser = clap::value_parser!(u64).range(..=86_400))]
    pub wait: u64,
}

/// Of every command that writes a file that is not a book's.
#[derive(Args, Clone, Debug)]
pub struct Output {
    /// Write over a file that is there already
    #[arg(long)]
    pub force: bool,
    #[command(flatten)]
    pub waiting: Waiting,
}

/// The kinds of file to start from.
#[derive(Clone, Copy, Debug, ValueEnum)]
pub enum Kind {
    Curves,
    Trades,
}

#[derive(Args, Debug)]
pub struct Template {
    /// What the file is to hold
    pub kind: Kind,
    /// The file to write; - is standard output
    #[arg(default_value = "-")]
    pub file: PathBuf,
    #[command(flatten)]
    pub output: Output,
}

#[derive(Args, Debug)]
#[command(after_help = curve_file::FORM)]
pub struct New {
    /// The book to make; a file that is there already stays
    pub book: PathBuf,
    /// The file of curves; - is standard input
    pub curves: PathBuf,
    #[command(flatten)]
    pub on: OnDay,
    #[command(flatten)]
    pub waiting: Waiting,
}

/// Of the commands that add trades.
#[derive(Args, Clone, Copy, Debug)]
pub struct Adding {
    /// Show the margin before and after, and ask whether to add
    #[arg(long)]
    pub preview: bool,
    /// Take a trade that looks keyed twice
    #[arg(long)]
    pub again: bool,
}

/// Of the commands that edit a book.
#[derive(Args, Clone, Debug)]
pub struct Edited {
    /// The book to change
    pub book: PathBuf,
    #[command(flatten)]
    pub on: OnDay,
    #[command(flatten)]
    pub waiting: Waiting,
}

#[derive(Args, Debug)]
#[command(after_help = columns())]
pub struct Append {
    #[command(flatten)]
    pub edited: Edited,
    /// Every column that the trade uses; the others are left out
    #[arg(required = true, value_name = "COLUMN=VALUE")]
    pub values: Vec<String>,
    #[command(flatten)]
    pub adding: Adding,
}

#[derive(Args, Debug)]
#[command(after_help = format!("{}\n{}", help!("import"), columns()))]
pub struct Import {
    #[command(flatten)]
    pub edited: Edited,
    /// The file of trades; - is standard input
    pub trades: PathBuf,
    #[command(flatten)]
    pub adding: Adding,
}

#[derive(Args, Debug)]
#[command(after_help = format!("{}\n{}", help!("preview"), columns()))]
pub struct Preview {
    /// The book; - is standard input
    pub book: PathBuf,
    /// Every column that the trade uses; the others are left out
    #[arg(value_name = "COLUMN=VALUE", required_unless_present = "trades")]
    pub values: Vec<String>,
    /// The trades of a file, in place of columns; - is standard input
    #[arg(long, value_name = "FILE", conflicts_with = "values")]
    pub trades: Option<PathBuf>,
    #[command(flatten)]
    pub on: OnDay,
    #[command(flatten)]
    pub form: Form,
}

#[derive(Args, Debug)]
#[command(after_help = columns())]
pub struct Amend {
    #[command(flatten)]
    pub edited: Edited,
    /// The trade's position as show lists it, from 0
    #[arg(value_parser = position)]
    pub position: usize,
    /// Columns that are left out stay as they are
    #[arg(required = true, value_name = "COLUMN=VALUE")]
    pub values: Vec<String>,
    /// Take a trade that looks keyed twice
    #[arg(long)]
    pub again: bool,
}

#[derive(Args, Debug)]
pub struct Strike {
    #[command(flatten)]
    pub edited: Edited,
    /// The trade's position as show lists it, from 0; those behind it move up
    #[arg(value_parser = position)]
    pub position: usize,
}

#[derive(Args, Debug)]
#[command(after_help = format!("{}\n{}", help!("curves"), curve_file::FORM))]
pub struct Curves {
    #[command(flatten)]
    pub edited: Edited,
    /// The file of curves; - is standard input
    pub file: PathBuf,
    /// Let trades keep their days, counted from another day
    #[arg(long)]
    pub keep_days: bool,
}

#[derive(Args, Debug)]
#[command(after_help = bond_help())]
pub struct Bootstrap {
    #[command(flatten)]
    pub edited: Edited,
    /// Every column of the bond
    #[arg(required = true, value_name = "COLUMN=VALUE")]
    pub values: Vec<String>,
    /// The id of the curve to lengthen
    #[arg(long, value_name = "ID", value_parser = curve_id)]
    pub curve: u8,
    /// What the bond settles for on the valuation day
    #[arg(long, value_name = "AMOUNT", allow_negative_numbers = true)]
    pub cash: String,
    /// How far each component moves the new node, in percent
    #[arg(long, required = true, num_args = 3, value_names = ["FIRST", "SECOND", "THIRD"])]
    #[arg(allow_negative_numbers = true, action = clap::ArgAction::Set)]
    pub components: Vec<String>,
    /// Show the new node, and leave the book, which may be - for standard input
    #[arg(long)]
    pub dry_run: bool,
    /// Draw the curve before and after, an SVG picture, in a dry run
    #[arg(long, value_name = "FILE", requires = "dry_run")]
    pub plot: Option<PathBuf>,
    /// Write over a picture that is there already
    #[arg(long, requires = "plot")]
    pub force: bool,
    #[command(flatten)]
    pub form: Form,
}

#[derive(Args, Debug)]
pub struct Check {
    /// One book or several; - is standard input
    #[arg(required = true, value_name = "BOOK")]
    pub books: Vec<PathBuf>,
    /// List the trades that look keyed twice, too
    #[arg(long)]
    pub doubles: bool,
    #[command(flatten)]
    pub form: Form,
}

#[derive(Args, Debug)]
#[command(after_help = help!("show"))]
pub struct Show {
    /// The book; - is standard input
    pub book: PathBuf,
    #[command(flatten)]
    pub form: Form,
}

#[derive(Args, Debug)]
#[command(after_help = help!("margin"))]
pub struct Margin {
    /// One book or several; - is standard input
    #[arg(required = true, value_name = "BOOK")]
    pub books: Vec<PathBuf>,
    #[command(flatten)]
    pub on: OnDay,
    #[command(flatten)]
    pub form: Form,
}

#[derive(Args, Debug)]
#[command(after_help = help!("statement"))]
pub struct Statement {
    /// The book; - is standard input
    pub book: PathBuf,
    /// The file to write; - is standard output
    #[arg(long, value_name = "FILE", default_value = "-")]
    pub to: PathBuf,
    /// Write the page as PDF
    #[arg(long, requires = "to")]
    pub pdf: bool,
    #[command(flatten)]
    pub on: OnDay,
    #[command(flatten)]
    pub output: Output,
}

#[derive(Args, Debug)]
#[command(after_help = help!("flows"))]
pub struct Flows {
    /// The book; - is standard input
    pub book: PathBuf,
    /// Only the curve with this id
    #[arg(long, value_name = "ID", value_parser = curve_id)]
    pub curve: Option<u8>,
    /// Each flow with its present value, in place of sums by day
    #[arg(long)]
    pub values: bool,
    #[command(flatten)]
    pub form: Form,
}

#[derive(Args, Debug)]
pub struct Losses {
    /// The book; - is standard input
    pub book: PathBuf,
    /// Only the curve with this id
    #[arg(long, value_name = "ID", value_parser = curve_id)]
    pub curve: Option<u8>,
    /// The part of each trade in its curve's worst loss, in place of scenarios
    #[arg(long)]
    pub trades: bool,
    #[command(flatten)]
    pub on: OnDay,
    #[command(flatten)]
    pub form: Form,
}

#[derive(Args, Debug)]
pub struct Diff {
    /// The book as it was; - is standard input
    pub book: PathBuf,
    /// The book as it is; - is standard input
    pub other: PathBuf,
    #[command(flatten)]
    pub form: Form,
}

#[derive(Args, Debug)]
pub struct Export {
    /// The book; - is standard input
    pub book: PathBuf,
    /// The file to write; - is standard output
    #[arg(default_value = "-")]
    pub file: PathBuf,
    /// The curves, as new and curves take them, in place of the trades
    #[arg(long, conflicts_with = "semicolon")]
    pub curves: bool,
    /// Semicolons between values, and decimal commas
    #[arg(long)]
    pub semicolon: bool,
    #[command(flatten)]
    pub output: Output,
}

#[derive(Args, Debug)]
pub struct Plot {
    /// The book; - is standard input
    pub book: PathBuf,
    /// The curve's id
    #[arg(value_parser = curve_id)]
    pub curve: u8,
    /// The file to write, an SVG picture; - is standard output
    pub file: PathBuf,
    /// The losses by scenario, in place of rates and cash flows
    #[arg(long)]
    pub losses: bool,
    #[command(flatten)]
    pub output: Output,
}

#[derive(Args, Debug)]
pub struct Explain {
    #[arg(value_parser = ground, help = format!("The ground's number, 1 to {}", Ground::ALL.len()))]
    pub number: Ground,
    /// A book: whether the ground applies there, and where
    pub book: Option<PathBuf>,
}

fn position(text: &str) -> Result<usize, String> {
    let number = text.parse();
    number.map_err(|_| "a position is a whole number from 0, as show lists them".into())
}

fn curve_id(text: &str) -> Result<u8, String> {
    let number = text.parse();
    number.map_err(|_| "a curve's id is a whole number from 1, as show lists them".into())
}

fn ground(text: &str) -> Result<Ground, String> {
    let number = text.parse().ok().and_then(Ground::from_number);
    number.ok_or_else(|| format!("grounds are numbered from 1 to {}", Ground::ALL.len()))
}

#[derive(Args, Debug)]
pub struct Completions {
    /// The shell to print them for
    pub shell: clap_complete::Shell,
}
