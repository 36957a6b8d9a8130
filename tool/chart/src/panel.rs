//! A panel: two axes with titles, and series drawn between them.

use crate::page::{Area, Drawn};
use crate::scale::Scale;
use crate::style::{anchored, font, printable, width, Look, AXIS, GRID, TEXT};
use plotters::coord::cartesian::Cartesian2d;
use plotters::prelude::*;
use plotters::style::text_anchor::HPos;
use std::ops::Range;

/// A value across and one upwards.
pub type Point = (f64, f64);

/// A scale and what is measured along it, with its unit.
pub struct Axis<'t> {
    pub title: &'t str,
    pub scale: Scale,
}

impl<'t> Axis<'t> {
    /// With room at both ends, a share of the scale's length.
    pub fn roomy(title: &'t str, scale: Scale, share: f64) -> Self {
        Axis::with_room(title, scale, [share, share])
    }

    /// With room below and above, shares of the scale's length.
    pub fn with_room(title: &'t str, scale: Scale, [below, above]: [f64; 2]) -> Self {
        let length = scale.length();
        let scale = scale.with_room(below * length, above * length);
        Axis { title, scale }
    }

    /// The room that the labels and the title of an upward axis need.
    pub fn breadth(&self) -> i32 {
        let labels = self.scale.labels().map(|label| width(&label, TEXT));
        labels.max().unwrap_or(0) + 2 * TICK + BELOW / 2
    }
}

const TICK: i32 = 4;

/// The room that the labels and the title of the axis across need.
const BELOW: i32 = 48;

/// Half of the last label across may stand beyond the axis.
const RIGHT: i32 = 30;

pub struct Panel<'a, 'p> {
    chart: ChartContext<'a, SVGBackend<'p>, Cartesian2d<Scale, Scale>>,
}

impl<'a, 'p> Panel<'a, 'p> {
    /// Axes that fill an area, the upward one `left` from its edge.
    pub fn new(area: &'a Area<'p>, left: i32, across: &Axis, up: &Axis) -> Drawn<Self> {
        let mut chart = ChartBuilder::on(area)
            .margin_top(8)
            .margin_right(RIGHT)
            .x_label_area_size(BELOW)
            .y_label_area_size(left)
            .build_cartesian_2d(across.scale.clone(), up.scale.clone())?;
        chart
            .configure_mesh()
            .label_style(font(TEXT))
            .x_desc(printable(across.title))
            .y_desc(printable(up.title))
            .set_all_tick_mark_size(TICK)
            .axis_style(AXIS)
            .bold_line_style(GRID)
            .draw()?;
        Ok(Panel { chart })
    }

    /// A line through points.
    pub fn line(&mut self, points: Vec<Point>, look: &Look) -> Drawn {
        let line = LineSeries::new(points, look.line);
        self.chart.draw_series(line).map(drop)
    }

    /// The sign of a series at points.
    pub fn points(&mut self, points: &[Point], look: &Look) -> Drawn {
        let points = points.iter().filter_map(|point| look.point(*point));
        self.chart.draw_series(points).map(drop)
    }

    /// Bars from 0 to points, each large enough to be seen.
    pub fn bars(&mut self, points: &[Point], look: &Look) -> Drawn {
        let (wide, high) = self.chart.plotting_area().dim_in_pixel();
        let half = 2.0 * length(self.chart.x_range()) / f64::from(wide);
        let least = 3.0 * length(self.chart.y_range()) / f64::from(high);
        let bar = |(x, y): &Point| {
            let top = y.abs().max(least).copysign(*y);
            let corners = [(x - half, 0.0), (x + half, top)];
            Rectangle::new(corners, look.line.filled())
        };
        self.chart.draw_series(points.iter().map(bar)).map(drop)
    }

    /// The line at 0, over the whole width.
    pub fn zero(&mut self) -> Drawn {
        let across = self.chart.x_range();
        let line = LineSeries::new([(across.start, 0.0), (across.end, 0.0)], AXIS);
        self.chart.draw_series(line).map(drop)
    }

    /// A text above a point and its sign.
    pub fn label(&mut self, point: Point, side: HPos, text: &str) -> Drawn {
        let text = Text::new(printable(text), (0, -22), anchored(side));
        let label = EmptyElement::at(point) + text;
        self.chart.plotting_area().draw(&label)
    }
}

fn length(range: Range<f64>) -> f64 {
    range.end - range.start
}
