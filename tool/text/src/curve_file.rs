//! Curves in a text file.

use crate::curve_reader::CurveReader;
use crate::decimal::{plain, Decimals, COEFFICIENT, PERCENT};
use crate::fault::{faultless, Fault};
use crate::file_content::content;
use seddolki_format::block::{Curve, Node};
use seddolki_format::report::CURRENCIES;

/// How a file of curves is written.
pub const FORM: &str = include_str!("../help/curve_file.txt");

/// What a file of curves holds.
#[derive(Clone, Debug, Default, PartialEq, Eq)]
pub struct CurveFile {
    /// The account's number.
    pub account: u32,
    /// The curves in order, as blocks whose checks are still to be written.
    pub curves: Vec<Curve>,
    /// The lines that each curve was given on.
    pub lines: Vec<CurveLines>,
}

/// The lines of a curve's parts, counted from 1.
#[derive(Clone, Debug, Default, PartialEq, Eq)]
pub struct CurveLines {
    /// Of its currency; it starts there.
    pub curve: u64,
    /// Of its steps.
    pub steps: u64,
    /// Of its ranges.
    pub ranges: u64,
    /// Of its nodes, in order.
    pub nodes: Vec<u64>,
}

/// Reads a whole file of curves.
///
/// # Errors
/// The faults of all lines, then what is missing.
pub fn read(bytes: &[u8]) -> Result<CurveFile, Vec<Fault>> {
    let mut reader = CurveReader::default();
    let mut faults = vec![];
    let bytes = content(bytes);
    for (number, line) in (1..).zip(bytes.split(|byte| *byte == b'\n')) {
        let wrong = reader.take_line(number, line).err().unwrap_or_default();
        let wrong = wrong.into_iter();
        faults.extend(wrong.map(|message| Fault::new(message).on_line(number)));
    }
    faults.extend(reader.missing());
    faultless(reader.file, faults)
}

/// Writes the curves of an accepted book; [`read`] gives the same.
pub fn write(account: u32, curves: &[Curve]) -> String {
    let curves: Vec<String> = curves.iter().map(curve_lines).collect();
    format!("account {account}\n{}", curves.concat())
}

fn curve_lines(curve: &Curve) -> String {
    let place = usize::from(curve.currency).checked_sub(1);
    let currency = place.and_then(|place| CURRENCIES.get(place));
    let nodes: Vec<String> = curve.nodes().iter().map(node_line).collect();
    let steps = curve.steps.map(|steps| steps.to_string()).join(" ");
    let ranges = curve.ranges.map(|r| plain(r, COEFFICIENT, Decimals::Point));
    format!(
        "\ncurve {}\nsteps  {steps}\nranges {}\n#    day        rate  components\n{}",
        currency.unwrap_or(&"?"),
        ranges.join(" "),
        nodes.concat()
    )
}

fn node_line(node: &Node) -> String {
    let rate = plain(node.rate, PERCENT, Decimals::Point);
    let [level, slope, bend] = node.components.map(|c| plain(c, PERCENT, Decimals::Point));
    let day = node.day;
    format!("node {day:<5} {rate:>9} {level:>9} {slope:>9} {bend:>9}\n")
}
