//! Curves by day above cash flows by day.

use crate::heading::Heading;
use crate::legend::legend;
use crate::numbers::units;
use crate::page::{page, Area, Drawn};
use crate::panel::{Axis, Panel, Point};
use crate::scale::Scale;
use crate::style::{Look, Marker, BLUE, ORANGE};
use plotters::style::RGBColor;

/// A node of a curve.
#[derive(Clone, Copy, Debug)]
pub struct Node {
    /// From the valuation day.
    pub day: u32,
    /// In millionths.
    pub rate: u32,
}

/// The sums of a day's cash flows, in hundredths; a day once in a ladder.
#[derive(Clone, Copy, Debug, Default)]
pub struct DayFlows {
    /// From the valuation day.
    pub day: u32,
    /// The sum that comes in.
    pub incoming: u64,
    /// The sum that goes out, without sign.
    pub outgoing: u64,
}

/// The nodes of a curve, and how it looks.
pub type Series<'a> = (&'a [Node], Look);

/// Two panels, one above the other, along the same days.
pub struct ByDay<'a> {
    /// What is said above.
    pub heading: &'a Heading,
    /// Each lies on those before it.
    pub curves: Vec<Series<'a>>,
    /// What the looks of the curves stand for.
    pub legend: &'a [(Look, String)],
    /// The cash flow ladder.
    pub flows: &'a [DayFlows],
}

const SIZE: (u32, u32) = (1200, 900);

const CURVES_HEIGHT: i32 = 460;

impl ByDay<'_> {
    /// The picture as SVG text; its title says what it shows.
    pub fn draw(&self, what: &str) -> String {
        page(SIZE, |area| {
            let area = self.heading.draw(area, what)?;
            self.draw_panels(&area)
        })
    }

    fn draw_panels(&self, area: &Area) -> Drawn {
        let (upper, lower) = area.split_vertically(CURVES_HEIGHT);
        let title = format!("cash flows, {}", self.heading.currency);
        let (rates, sums) = (self.rate_axis(), self.sum_axis(&title));
        let left = rates.breadth().max(sums.breadth());
        let last_day = self.last_day();
        let title = "days from the valuation day";
        let days = Axis::roomy(title, Scale::whole(last_day, 12), 0.01);
        let upper = legend(&upper, self.legend)?;
        let lower = legend(&lower, &ladder_looks())?;
        let above = Panel::new(&upper, left, &days, &rates)?;
        let below = Panel::new(&lower, left, &days, &sums)?;
        self.draw_curves(above, last_day)?;
        self.draw_ladder(below)
    }

    fn nodes(&self) -> impl Iterator<Item = &Node> {
        self.curves.iter().flat_map(|(nodes, _)| *nodes)
    }

    fn last_day(&self) -> u32 {
        let nodes = self.nodes().map(|node| node.day);
        let flows = self.flows.iter().map(|flows| flows.day);
        nodes.chain(flows).max().unwrap_or(0).max(1)
    }

    /// At least half a percent of what rates can be.
    fn rate_axis(&self) -> Axis<'static> {
        let rates = self.nodes().map(percent);
        let (low, high) = rates.fold((100.0_f64, 0.0_f64), |(low, high), rate| {
            (low.min(rate), high.max(rate))
        });
        let widened = (0.25 - (high - low) / 2.0).max(0.0);
        let low = (low - widened).clamp(0.0, 99.5);
        let high = (high + widened).clamp(0.5, 100.0);
        Axis::roomy("rate, percent", Scale::new(low, high, 8), 0.05)
    }

    /// From the largest sum out to the largest sum in.
    fn sum_axis<'t>(&self, title: &'t str) -> Axis<'t> {
        let largest = |sum: fn(&DayFlows) -> u64| self.flows.iter().map(sum).max().unwrap_or(0);
        let incoming = units(largest(|flows| flows.incoming));
        let outgoing = units(largest(|flows| flows.outgoing));
        let least = (0.1 * incoming.max(outgoing)).max(1.0);
        let scale = Scale::new(-outgoing.max(least), incoming.max(least), 8);
        Axis::roomy(title, scale, 0.05)
    }

    fn draw_curves(&self, mut panel: Panel, last_day: u32) -> Drawn {
        for (nodes, look) in &self.curves {
            panel.line(carried_on(nodes, last_day), look)?;
            panel.points(&points(nodes), look)?;
        }
        Ok(())
    }

    fn draw_ladder(&self, mut panel: Panel) -> Drawn {
        let bars = |sum: fn(&DayFlows) -> f64| -> Vec<Point> {
            let flows = self.flows.iter();
            let sums = flows.map(|flows| (flows.day.into(), sum(flows)));
            sums.filter(|(_, sum)| *sum != 0.0).collect()
        };
        let [(incoming, _), (outgoing, _)] = ladder_looks();
        panel.bars(&bars(|flows| units(flows.incoming)), &incoming)?;
        panel.bars(&bars(|flows| -units(flows.outgoing)), &outgoing)?;
        panel.zero()
    }
}

/// How sums in and sums out look.
fn ladder_looks() -> [(Look, String); 2] {
    let bar = |colour: RGBColor| Look::new(colour, 1, Marker::Bar);
    [
        (bar(BLUE), "in, upwards".into()),
        (bar(ORANGE), "out, downwards".into()),
    ]
}

/// The nodes, with the end nodes' rates carried on to both ends.
fn carried_on(nodes: &[Node], last_day: u32) -> Vec<Point> {
    let mut points = points(nodes);
    if let (Some(first), Some(last)) = (points.first().copied(), points.last().copied()) {
        points.insert(0, (0.0, first.1));
        points.push((last_day.into(), last.1));
    }
    points
}

fn points(nodes: &[Node]) -> Vec<Point> {
    let point = |node: &Node| (f64::from(node.day), percent(node));
    nodes.iter().map(point).collect()
}

fn percent(node: &Node) -> f64 {
    f64::from(node.rate) / 10_000.0
}
