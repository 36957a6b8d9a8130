//! A curve before and after a bond's price has lengthened it, above what the
//! bond pays.

use crate::by_day::{ByDay, DayFlows, Node};
use crate::heading::Heading;
use crate::style::{over, under};

/// A curve with one node more, and the cash flows of the bond that it is from.
#[derive(Clone, Debug)]
pub struct Lengthened<'a> {
    /// The curve, the bond with its cash, and the new node.
    pub heading: Heading,
    /// The nodes before.
    pub before: &'a [Node],
    /// The nodes after.
    pub after: &'a [Node],
    /// The cash that goes out on day 0, and the payments that come in.
    pub flows: &'a [DayFlows],
}

impl Lengthened<'_> {
    /// The picture as SVG text.
    pub fn draw(&self) -> String {
        let legend = [
            (under(), "the curve before".into()),
            (over(), "the curve after".into()),
        ];
        let panels = ByDay {
            heading: &self.heading,
            curves: vec![(self.before, under()), (self.after, over())],
            legend: &legend,
            flows: self.flows,
        };
        panels.draw("lengthened by a bond's price")
    }
}
