//! The lines above a picture of a curve.

use crate::page::{line, Area, Drawn};
use crate::style::{TEXT, TITLE};

/// What is said of a curve.
#[derive(Clone, Debug)]
pub struct Heading {
    /// Which curve it is.
    pub curve: String,
    /// The currency's name.
    pub currency: &'static str,
    /// Its figures, or what became of it.
    pub lines: [String; 2],
}

impl Heading {
    /// Three lines, of which the first says what the picture shows; the area
    /// below them is left.
    pub fn draw<'p>(&self, area: &Area<'p>, what: &str) -> Drawn<Area<'p>> {
        let title = format!("Curve {}, {}: {what}", self.curve, self.currency);
        let area = line(area, &title, TITLE)?;
        let area = line(&area, &self.lines[0], TEXT)?;
        line(&area, &self.lines[1], TEXT)
    }
}
