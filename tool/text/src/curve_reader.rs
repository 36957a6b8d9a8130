//! A file of curves while it is read.

use crate::curve_file::{CurveFile, CurveLines};
use crate::decimal::{COEFFICIENT, PERCENT};
use crate::fault::{shown, Fault};
use crate::quantity::{miscounted, numbers, Quantity};
use seddolki_format::block::{Curve, Node, CURVE};
use seddolki_format::limits::{CURVES, MAX_RANGE, MAX_RATE, MAX_STEPS, NODES};
use seddolki_format::report::CURRENCIES;
use seddolki_format::text::listed;

const WORDS: [&str; 5] = ["account", "curve", "steps", "ranges", "node"];

const ACCOUNT: Quantity = Quantity::new(0, 0, u32::MAX as i64);
const STEPS: Quantity = Quantity::new(0, 0, MAX_STEPS as i64);
const RANGE: Quantity = Quantity::new(COEFFICIENT, 0, MAX_RANGE as i64);
const DAY: Quantity = Quantity::day(0);
const RATE: Quantity = Quantity::new(PERCENT, 0, MAX_RATE as i64);

/// Everything that is wrong with a line.
pub(crate) type Wrong = Vec<String>;

fn wrong(message: impl Into<String>) -> Wrong {
    vec![message.into()]
}

/// What has been read so far. A line that has not been given is 0.
#[derive(Default)]
pub(crate) struct CurveReader {
    pub file: CurveFile,
    account_line: u64,
}

impl CurveReader {
    /// Takes a line of any kind.
    pub fn take_line(&mut self, number: u64, line: &[u8]) -> Result<(), Wrong> {
        let line = str::from_utf8(line).map_err(|_| wrong("it is not written in UTF-8"))?;
        let line = line.split('#').next().unwrap_or_default();
        let words: Vec<&str> = line.split_whitespace().collect();
        let Some((&word, values)) = words.split_first() else {
            return Ok(());
        };
        match word {
            "account" => {
                once(word, &mut self.account_line, number)?;
                [self.file.account] = numbers(values, [ACCOUNT])?;
                Ok(())
            }
            "curve" => self.start_curve(number, values),
            _ if WORDS.contains(&word) => self.take_curve_line(number, word, values),
            _ => {
                let words = listed(WORDS, "or");
                Err(wrong(format!("{} is none of {words}", shown(word))))
            }
        }
    }

    /// The lines below are the curve's own, whatever is wrong with this one.
    fn start_curve(&mut self, line: u64, values: &[&str]) -> Result<(), Wrong> {
        let id = u8::try_from(self.file.curves.len() + 1);
        self.file.curves.push(Curve {
            kind: CURVE,
            id: id.unwrap_or_default(),
            number: id.unwrap_or_default().into(),
            currency: currency(values).unwrap_or_default(),
            ..Curve::default()
        });
        self.file.lines.push(CurveLines {
            curve: line,
            ..CurveLines::default()
        });
        id.map_err(|_| wrong(format!("a book has at most {} curves", CURVES.end())))?;
        currency(values).map(drop)
    }

    /// Takes a line of steps, of ranges or of a node.
    fn take_curve_line(&mut self, number: u64, word: &str, values: &[&str]) -> Result<(), Wrong> {
        let CurveFile { curves, lines, .. } = &mut self.file;
        let (Some(curve), Some(lines)) = (curves.last_mut(), lines.last_mut()) else {
            return Err(wrong("a curve line has to come first"));
        };
        match word {
            "steps" => {
                once(word, &mut lines.steps, number)?;
                curve.steps = numbers(values, [STEPS; 3])?;
            }
            "ranges" => {
                once(word, &mut lines.ranges, number)?;
                curve.ranges = numbers(values, [RANGE; 3])?;
            }
            _ => {
                let place = curve.places.get_mut(lines.nodes.len());
                let most = || wrong(format!("a curve has at most {} nodes", NODES.end()));
                let place = place.ok_or_else(most)?;
                curve.node_count += 1;
                lines.nodes.push(number);
                *place = node(values)?;
            }
        }
        Ok(())
    }

    /// What has not been given.
    pub fn missing(&self) -> Vec<Fault> {
        let mut faults = vec![];
        if self.account_line == 0 {
            faults.push(Fault::new("there is no account line"));
        }
        if self.file.curves.is_empty() {
            faults.push(Fault::new("there is no curve line"));
        }
        for (id, lines) in (1..).zip(&self.file.lines) {
            let fault = |what| Fault::new(format!("curve {id} has {what}")).on_line(lines.curve);
            faults.extend(missing_lines(lines).into_iter().map(fault));
        }
        faults
    }
}

fn missing_lines(lines: &CurveLines) -> Vec<String> {
    let mut missing = vec![];
    for (line, what) in [(lines.steps, "steps"), (lines.ranges, "ranges")] {
        missing.extend((line == 0).then(|| format!("no {what} line")));
    }
    let (least, nodes) = (NODES.start(), lines.nodes.len());
    if nodes < usize::from(*least) {
        missing.push(format!("{nodes} of at least {least} node lines"));
    }
    missing
}

/// Marks the line that a word is given on, which it may be once.
fn once(word: &str, first: &mut u64, line: u64) -> Result<(), Wrong> {
    if *first == 0 {
        *first = line;
        return Ok(());
    }
    let message = format!("{word} is given twice, on lines {first} and {line}");
    Err(wrong(message))
}

fn currency(values: &[&str]) -> Result<u8, Wrong> {
    let allowed = listed(CURRENCIES, "or");
    let [name] = values else {
        let found = values.len();
        return Err(wrong(format!("1 currency due, {found} found: {allowed}")));
    };
    let mut currencies = (1..).zip(CURRENCIES);
    let found = currencies.find(|(_, currency)| currency.eq_ignore_ascii_case(name));
    let found = found.map(|(number, _)| number);
    found.ok_or_else(|| wrong(format!("{} is none of {allowed}", shown(name))))
}

fn node(values: &[&str]) -> Result<Node, Wrong> {
    if values.len() != 5 {
        let count = miscounted(5, values);
        return Err(wrong(format!("{count}: a day, a rate and 3 components")));
    }
    let (day, rate) = (numbers(&values[..1], [DAY]), numbers(&values[1..2], [RATE]));
    match (day, rate, numbers(&values[2..], [Quantity::COMPONENT; 3])) {
        (Ok([day]), Ok([rate]), Ok(components)) => Ok(Node {
            day,
            rate,
            components,
        }),
        (day, rate, components) => {
            let wrong = [day.err(), rate.err(), components.err()];
            Err(wrong.into_iter().flatten().flatten().collect())
        }
    }
}
