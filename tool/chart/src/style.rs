//! Colours that the colour-blind can tell apart (after Okabe and Ito), how
//! lines and points look, and texts.

use plotters::element::{DynElement, IntoDynElement};
use plotters::prelude::*;
use plotters::style::text_anchor::{HPos, Pos, VPos};

pub const BLUE: RGBColor = RGBColor(0x00, 0x72, 0xb2);
pub const VERMILLION: RGBColor = RGBColor(0xd5, 0x5e, 0x00);
pub const ORANGE: RGBColor = RGBColor(0xe6, 0x9f, 0x00);
pub const GREY: RGBColor = RGBColor(0x99, 0x99, 0x99);

/// Of axes, ticks and the line at 0.
pub const AXIS: RGBColor = RGBColor(0x40, 0x40, 0x40);
pub const GRID: RGBColor = RGBColor(0xe0, 0xe0, 0xe0);

/// Sizes of text as plotters counts them; SVG has them divided by `EM`.
pub const TITLE: f64 = 24.0;
pub const TEXT: f64 = 17.0;
const EM: f64 = 1.24;

/// The sign of a series besides its colour, with its radius.
#[derive(Clone, Copy)]
pub enum Marker {
    None,
    Circle(u32),
    Triangle(u32),
    Bar,
}

/// How a series looks, in its panel and in the legend alike.
#[derive(Clone, Copy)]
pub struct Look {
    pub line: ShapeStyle,
    pub marker: Marker,
}

impl Look {
    pub fn new(colour: impl Color, width: u32, marker: Marker) -> Self {
        let line = ShapeStyle::from(colour.to_rgba()).stroke_width(width);
        Look { line, marker }
    }

    /// The sign at a place, of a series that has one.
    pub fn point<'e, B: DrawingBackend, C: Clone + 'static>(
        &self,
        place: C,
    ) -> Option<DynElement<'e, B, C>> {
        let style = self.line.filled();
        match self.marker {
            Marker::Circle(radius) => Some(Circle::new(place, radius, style).into_dyn()),
            Marker::Triangle(radius) => Some(TriangleMarker::new(place, radius, style).into_dyn()),
            Marker::None | Marker::Bar => None,
        }
    }
}

/// A curve on which another may lie: wide, so that it shows under one that is
/// the same.
pub fn under() -> Look {
    Look::new(BLACK, 6, Marker::Circle(6))
}

/// The curve that lies on it.
pub fn over() -> Look {
    Look::new(VERMILLION, 3, Marker::Triangle(8))
}

/// A text's width at most: no common sans-serif is wider than DejaVu.
///
/// Without fonts plotters reckons every letter at less than DejaVu's digits.
pub fn width(text: &str, size: f64) -> i32 {
    let ems: f64 = text.chars().map(letter_width).sum();
    (ems * size / EM).ceil() as i32
}

fn letter_width(letter: char) -> f64 {
    match letter {
        ' ' | ',' | '.' | ':' | '-' | 'f' | 'i' | 'j' | 'l' | 'r' | 't' => 0.42,
        'a'..='l' | 'n'..='v' | 'x'..='z' | '0'..='9' => 0.65,
        _ => 1.0,
    }
}

/// The size wanted, or the one at which a text fits.
pub fn fitting(text: &str, wanted: f64, room: u32) -> f64 {
    let needed = f64::from(width(text, wanted));
    wanted * (f64::from(room) / needed.max(1.0)).min(1.0)
}

pub fn font(size: f64) -> TextStyle<'static> {
    TextStyle::from(("sans-serif", size).into_font())
}

/// A text that starts, is centred or ends at a height's middle.
pub fn anchored(across: HPos) -> TextStyle<'static> {
    font(TEXT).pos(Pos::new(across, VPos::Center))
}

/// A text without the control characters that XML has no place for.
pub fn printable(text: &str) -> String {
    text.chars().filter(|letter| !letter.is_control()).collect()
}
