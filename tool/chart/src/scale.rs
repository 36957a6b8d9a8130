//! The values that an axis spans, with round ticks.

use crate::numbers::rounded;
use plotters::coord::ranged1d::{
    BoldPoints, KeyPointHint, NoDefaultFormatting, Ranged, ValueFormatter,
};
use plotters::coord::types::{RangedCoordf64, RangedCoordi32};
use std::ops::Range;

/// A coordinate whose ticks stay as they are when room is left around it.
#[derive(Clone)]
pub struct Scale {
    span: RangedCoordf64,
    ticks: Vec<f64>,
    decimals: usize,
}

impl Scale {
    /// From `low` to `high`, which is larger, and on to the next ticks.
    pub fn new(low: f64, high: f64, most_ticks: usize) -> Self {
        let within = RangedCoordf64::from(low..high).key_points(BoldPoints(most_ticks));
        let ticks = outwards(within, low, high);
        let low = ticks.first().map_or(low, |first| first.min(low));
        let high = ticks.last().map_or(high, |last| last.max(high));
        Scale {
            span: RangedCoordf64::from(low..high),
            decimals: decimals(&ticks),
            ticks,
        }
    }

    /// From 0 to `last`, with ticks at whole numbers alone.
    pub fn whole(last: u32, most_ticks: usize) -> Self {
        let last = i32::try_from(last).unwrap_or(i32::MAX);
        let ticks = RangedCoordi32::from(0..last).key_points(BoldPoints(most_ticks));
        Scale {
            span: RangedCoordf64::from(0.0..f64::from(last)),
            ticks: ticks.into_iter().map(f64::from).collect(),
            decimals: 0,
        }
    }

    /// Room below and above, without ticks.
    pub fn with_room(self, below: f64, above: f64) -> Self {
        let Range { start, end } = self.span.range();
        let span = RangedCoordf64::from(start - below..end + above);
        Scale { span, ..self }
    }

    pub fn length(&self) -> f64 {
        let Range { start, end } = self.span.range();
        end - start
    }

    pub fn labels(&self) -> impl Iterator<Item = String> + '_ {
        self.ticks.iter().map(|tick| self.format_ext(tick))
    }
}

/// Ticks with one more at either end that they do not reach.
fn outwards(mut ticks: Vec<f64>, low: f64, high: f64) -> Vec<f64> {
    if let [first, second, ..] = ticks[..] {
        let step = second - first;
        let last = ticks[ticks.len() - 1];
        if last + step / 1e6 < high {
            ticks.push(last + step);
        }
        if first - step / 1e6 > low {
            ticks.insert(0, first - step);
        }
    }
    ticks
}

/// As many as tell the ticks apart.
fn decimals(ticks: &[f64]) -> usize {
    match ticks {
        [first, second, ..] => (-(second - first).log10() - 1e-9).ceil().max(0.0) as usize,
        _ => 0,
    }
}

impl Ranged for Scale {
    type FormatOption = NoDefaultFormatting;
    type ValueType = f64;

    fn map(&self, value: &f64, limit: (i32, i32)) -> i32 {
        self.span.map(value, limit)
    }

    fn key_points<Hint: KeyPointHint>(&self, hint: Hint) -> Vec<f64> {
        if hint.weight().allow_light_points() {
            vec![]
        } else {
            self.ticks.clone()
        }
    }

    fn range(&self) -> Range<f64> {
        self.span.range()
    }
}

impl ValueFormatter<f64> for Scale {
    fn format_ext(&self, value: &f64) -> String {
        rounded(*value, self.decimals)
    }
}
