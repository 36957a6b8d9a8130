//! The number in a field, and the rules that it may be held to.

use crate::{Fault, Ground, Unit};
use std::fmt::Display;
use std::ops::RangeInclusive;

/// What a field is, whichever book it stands in.
#[derive(Clone, Copy, Debug, PartialEq, Eq)]
pub struct About {
    /// As in the layout.
    pub name: &'static str,
    /// What its numbers count.
    pub unit: Unit,
    /// The least number that any book may hold there.
    pub least: i128,
    /// The largest number that any book may hold there.
    pub most: i128,
    /// What the field says.
    pub meaning: &'static str,
}

/// Whether a broken rule is put in words.
pub trait Tell {
    fn tell(words: impl Display) -> Self;
}

impl Tell for String {
    fn tell(words: impl Display) -> Self {
        words.to_string()
    }
}

/// Where the ground alone is asked for.
impl Tell for () {
    fn tell(_: impl Display) -> Self {}
}

/// The number that a field holds.
#[derive(Clone, Copy, Debug)]
pub struct Found {
    pub about: &'static About,
    pub number: i128,
}

/// A rule that a number breaks.
#[derive(Clone, Debug)]
pub struct Breach<W = String> {
    pub found: Found,
    /// What may stand there.
    pub allowed: W,
    /// Why nothing else may.
    pub why: W,
}

/// Whether a rule is kept.
pub type Kept<W = String> = Result<(), Breach<W>>;

impl Found {
    /// Within the limits that hold for every book.
    pub fn within_limits<W: Tell>(self) -> Kept<W> {
        let About { least, most, .. } = *self.about;
        self.within(least..=most, self.about.meaning)
    }

    /// Within a range that is not empty.
    pub fn within<W: Tell>(self, range: RangeInclusive<i128>, why: impl Display) -> Kept<W> {
        let allowed = self.about.unit.range(*range.start(), *range.end());
        self.require(range.contains(&self.number), allowed, why)
    }

    pub fn is<W: Tell>(self, due: impl Into<i128>, why: impl Display) -> Kept<W> {
        let due = due.into();
        self.within(due..=due, why)
    }

    pub fn is_zero<W: Tell>(self, why: impl Display) -> Kept<W> {
        self.is(0, why)
    }

    /// One of a list, which may name a number more than once.
    pub fn one_of<W: Tell>(
        self,
        list: impl Iterator<Item = u8> + Clone,
        why: impl Display,
    ) -> Kept<W> {
        let numbers = list.map(i128::from);
        let holds = numbers.clone().any(|number| number == self.number);
        self.require(holds, self.about.unit.one_of(numbers), why)
    }

    /// Nothing is put in words where the rule is kept.
    pub fn require<W: Tell>(
        self,
        holds: bool,
        allowed: impl Display,
        why: impl Display,
    ) -> Kept<W> {
        if holds {
            return Ok(());
        }
        Err(Breach {
            found: self,
            allowed: W::tell(allowed),
            why: W::tell(why),
        })
    }
}

/// Ok if the rule is kept, the ground's fault if not.
pub fn require<W>(ground: Ground, rule: Kept<W>) -> Result<(), Fault<W>> {
    rule.map_err(|breach| Fault {
        ground,
        field: breach.found.about.name,
        unit: breach.found.about.unit,
        found: breach.found.number,
        allowed: breach.allowed,
        why: breach.why,
    })
}
