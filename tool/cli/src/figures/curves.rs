//! The curves that a command speaks of.

use crate::ended::Ended;
use crate::files::BookFile;
use crate::printed::Value;
use seddolki_format::block::Curve;
use seddolki_format::report::currency_name;

/// All curves of a book, or the one with an id.
pub fn chosen_curves(file: &BookFile, id: Option<u8>) -> Result<Vec<&Curve>, Ended> {
    match id {
        None => Ok(file.parts.curves.iter().collect()),
        Some(id) => curve(file, id).map(|curve| vec![curve]),
    }
}

/// The curve with an id.
pub fn curve(file: &BookFile, id: u8) -> Result<&Curve, Ended> {
    let curves = &file.parts.curves;
    let found = curves.iter().find(|curve| curve.id == id);
    found.ok_or_else(|| {
        let (name, last) = (&file.name, curves.len());
        Ended::refused(format!(
            "{name}: there is no curve {id}: its curves are 1 to {last}"
        ))
    })
}

/// The cells of the columns valuation_day, curve and currency.
pub fn curve_cells(file: &BookFile, curve: &Curve) -> [Value; 3] {
    [
        Value::date(file.parts.valuation_day),
        Value::Id(curve.id.into()),
        Value::text(currency_name(curve.currency.into())),
    ]
}
