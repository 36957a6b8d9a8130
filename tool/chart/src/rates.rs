//! A curve with its stressed curves, above its cash flow ladder.

use crate::by_day::{ByDay, DayFlows, Node};
use crate::heading::Heading;
use crate::style::{over, under, Look, Marker, GREY};
use plotters::prelude::Color;
use seddolki_format::text::count;

/// Rates by day of a curve and its stressed curves, and its cash flows by day.
#[derive(Clone, Debug)]
pub struct Rates<'a> {
    /// What is said above.
    pub heading: Heading,
    /// The curve's own nodes.
    pub base: &'a [Node],
    /// The nodes of every stressed curve.
    pub stressed: &'a [Vec<Node>],
    /// The nodes of the stressed curve with the worst loss.
    pub worst: &'a [Node],
    /// The cash flow ladder.
    pub flows: &'a [DayFlows],
}

impl Rates<'_> {
    /// The picture as SVG text.
    pub fn draw(&self) -> String {
        let stressed = stressed_look(self.stressed.len());
        let legend = [
            (under(), "the curve".into()),
            (over(), "stressed curve with the worst loss".into()),
            (stressed, count(self.stressed.len(), "stressed curve")),
        ];
        let all = self.stressed.iter().map(|nodes| (&nodes[..], stressed));
        let own = [(self.base, under()), (self.worst, over())];
        let panels = ByDay {
            heading: &self.heading,
            curves: all.chain(own).collect(),
            legend: &legend,
            flows: self.flows,
        };
        panels.draw("rates and cash flows by day")
    }
}

fn stressed_look(count: usize) -> Look {
    let opacity = if count < 50 { 1.0 } else { 0.4 };
    Look::new(GREY.mix(opacity), 1, Marker::None)
}
