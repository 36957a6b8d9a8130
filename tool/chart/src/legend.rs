//! What stands for what, in a row above a panel.

use crate::page::{Area, Drawn};
use crate::style::{anchored, width, Look, Marker, TEXT};
use plotters::prelude::*;
use plotters::style::text_anchor::HPos;

const HEIGHT: i32 = 36;
const MIDDLE: i32 = 22;
const SAMPLE: i32 = 36;
const GAP: i32 = 8;

/// A row of samples with their names, centred; the area below is left.
pub fn legend<'p>(area: &Area<'p>, entries: &[(Look, String)]) -> Drawn<Area<'p>> {
    let (row, rest) = area.split_vertically(HEIGHT);
    let breadth = |name: &str| SAMPLE + width(name, TEXT) + 4 * GAP;
    let all: i32 = entries.iter().map(|(_, name)| breadth(name)).sum();
    let mut left = (row.dim_in_pixel().0 as i32 - all) / 2;
    for (look, name) in entries {
        sample(&row, look, left)?;
        let place = (left + SAMPLE + GAP, MIDDLE);
        row.draw_text(name, &anchored(HPos::Left), place)?;
        left += breadth(name);
    }
    Ok(rest)
}

/// A short piece of the series.
fn sample(row: &Area, look: &Look, left: i32) -> Drawn {
    let right = left + SAMPLE;
    let thick = look.line.stroke_width.max(2) as i32;
    let top = MIDDLE - thick / 2;
    let piece = match look.marker {
        Marker::Bar => [(right - 14, MIDDLE - 8), (right, MIDDLE + 8)],
        _ => [(left, top), (right, top + thick)],
    };
    row.draw(&Rectangle::new(piece, look.line.filled()))?;
    match look.point((left + SAMPLE / 2, MIDDLE)) {
        Some(point) => row.draw(&point),
        None => Ok(()),
    }
}
