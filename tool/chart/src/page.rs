//! A white page, and lines of text at its top.

use crate::style::{fitting, font, printable};
use plotters::coord::Shift;
use plotters::drawing::DrawingAreaErrorKind;
use plotters::prelude::*;

/// A part of the page.
pub type Area<'p> = DrawingArea<SVGBackend<'p>, Shift>;

pub type Drawn<T = ()> = Result<T, DrawingAreaErrorKind<std::io::Error>>;

/// Blank at the edges of every page.
const MARGIN: i32 = 12;

/// The SVG text of what is drawn.
pub fn page(size: (u32, u32), draw: impl FnOnce(&Area) -> Drawn) -> String {
    let mut text = String::new();
    {
        let area = SVGBackend::with_string(&mut text, size).into_drawing_area();
        let drawn = area
            .fill(&WHITE)
            .and_then(|()| draw(&area.margin(MARGIN, MARGIN, MARGIN, MARGIN)))
            .and_then(|()| area.present());
        drawn.expect("a string takes all");
    }
    text
}

/// A line of text at the top of an area, smaller where it is long; the area below is left.
pub fn line<'p>(area: &Area<'p>, text: &str, size: f64) -> Drawn<Area<'p>> {
    let text = printable(text);
    let (room, _) = area.dim_in_pixel();
    area.titled(&text, font(fitting(&text, size, room)))
}
