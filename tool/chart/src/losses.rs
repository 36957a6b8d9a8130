//! The losses of a curve by scenario.

use crate::heading::Heading;
use crate::numbers::units;
use crate::page::{page, Area, Drawn};
use crate::panel::{Axis, Panel, Point};
use crate::scale::Scale;
use crate::style::{Look, Marker, BLUE, VERMILLION};
use plotters::style::text_anchor::HPos;
use seddolki_format::text::{decimal, MONEY};

/// Losses by scenario, the first worst marked.
#[derive(Clone, Debug)]
pub struct Losses<'a> {
    /// What is said above.
    pub heading: Heading,
    /// From scenario 0, in hundredths.
    pub losses: &'a [i64],
}

const SIZE: (u32, u32) = (1200, 640);

impl Losses<'_> {
    /// The picture as SVG text.
    pub fn draw(&self) -> String {
        page(SIZE, |area| {
            let area = self.heading.draw(area, "losses by scenario")?;
            self.draw_losses(&area)
        })
    }

    fn draw_losses(&self, area: &Area) -> Drawn {
        let title = format!("loss, {}", self.heading.currency);
        let losses = self.loss_axis(&title);
        let mut panel = Panel::new(area, losses.breadth(), &self.scenario_axis(), &losses)?;
        panel.zero()?;
        let radius = if self.losses.len() < 50 { 5 } else { 3 };
        let look = Look::new(BLUE, 1, Marker::Circle(radius));
        for (scenario, loss) in self.points() {
            panel.line(vec![(scenario, 0.0), (scenario, loss)], &look)?;
        }
        panel.points(&self.points(), &look)?;
        match self.worst() {
            Some(worst) => self.mark(&mut panel, worst),
            None => Ok(()),
        }
    }

    fn points(&self) -> Vec<Point> {
        let numbered = self.losses.iter().enumerate();
        let point = |(scenario, loss): (usize, &i64)| (scenario as f64, units(*loss));
        numbered.map(point).collect()
    }

    fn scenario_axis(&self) -> Axis<'static> {
        let last = self.losses.len().saturating_sub(1);
        let scale = Scale::whole(last.try_into().unwrap_or(u32::MAX), 12);
        let room = (0.02 * scale.length()).max(0.5);
        Axis {
            title: "scenario",
            scale: scale.with_room(room, room),
        }
    }

    /// 0 is within, and the label of the worst has room above.
    fn loss_axis<'t>(&self, title: &'t str) -> Axis<'t> {
        let low = self.losses.iter().copied().fold(0, i64::min);
        let high = self.losses.iter().copied().fold(0, i64::max);
        let high = if low == high { 100 } else { high };
        let scale = Scale::new(units(low), units(high), 10);
        Axis::with_room(title, scale, [0.05, 0.12])
    }

    /// The first scenario with the largest loss.
    fn worst(&self) -> Option<usize> {
        let largest = self.losses.iter().max()?;
        self.losses.iter().position(|loss| loss == largest)
    }

    fn mark(&self, panel: &mut Panel, worst: usize) -> Drawn {
        let loss = self.losses[worst];
        let point = (worst as f64, units(loss));
        let look = Look::new(VERMILLION, 3, Marker::Triangle(9));
        panel.line(vec![(point.0, 0.0), point], &look)?;
        panel.points(&[point], &look)?;
        let (amount, currency) = (decimal(loss, MONEY), self.heading.currency);
        let text = format!("worst: scenario {worst}, {amount} {currency}");
        panel.label((point.0, point.1.max(0.0)), self.side(worst), &text)
    }

    /// Where a label stays within the page.
    fn side(&self, scenario: usize) -> HPos {
        match 3 * (2 * scenario + 1) / (2 * self.losses.len()) {
            0 => HPos::Left,
            1 => HPos::Center,
            _ => HPos::Right,
        }
    }
}
