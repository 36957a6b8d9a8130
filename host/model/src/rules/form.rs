//! Kind, side, phase and security, ground 8.

use crate::fields::KIND;
use crate::fields::PHASE;
use crate::fields::SECURITY;
use crate::fields::SIDE;
use crate::{rule_texts, Kept, Record, Tell, OUTRIGHT, POOL, TABLE};

/// What the table of flows lacks is not allowed.
pub fn allowed_together<W: Tell>(record: &Record) -> Kept<W> {
    let kinds = TABLE.iter().map(|line| line.0);
    KIND.of(record).one_of(kinds, KIND.about.meaning)?;
    let of_kind = TABLE.iter().filter(|line| line.0 == record.kind);
    let sides = of_kind.clone().map(|line| line.2);
    SIDE.of(record).one_of(sides, SIDE.about.meaning)?;
    let of_side = of_kind.filter(|line| line.2 == record.side);
    let phases = of_side.map(|line| line.1);
    PHASE.of(record).one_of(phases, phases_of(record.kind))?;
    let securities = record.securities();
    SECURITY.of(record).one_of(securities, rule_texts::SECURITY)
}

fn phases_of(kind: u8) -> &'static str {
    match kind {
        OUTRIGHT => "an outright has no phase",
        POOL => "the phases of a pool repo",
        _ => "the phases of a specified repo",
    }
}
