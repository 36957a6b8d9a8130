//! Numbers in the units that people write them in.

use seddolki_format::text::{decimal, listed, COEFFICIENT, MONEY, PERCENT};
use std::collections::BTreeSet;
use std::fmt::{from_fn, Display};

/// What the numbers of a field count.
#[derive(Clone, Copy, Debug, PartialEq, Eq)]
pub enum Unit {
    /// Themselves: days, counts, ids, indices.
    Whole,
    /// Hundredths of a currency.
    Money,
    /// Millionths, written in percent.
    Percent,
    /// Hundredths of a component.
    Coefficient,
    /// Names, the first one of this number.
    Named(u8, &'static [&'static str]),
}

impl Unit {
    /// A number as people write it.
    pub fn words(self, number: impl Into<i128>) -> impl Display {
        let number = number.into();
        from_fn(move |f| match self {
            Unit::Whole => f.write_str(&decimal(number, 0)),
            Unit::Money => f.write_str(&decimal(number, MONEY)),
            Unit::Coefficient => f.write_str(&decimal(number, COEFFICIENT)),
            Unit::Percent => write!(f, "{}%", decimal(number, PERCENT)),
            Unit::Named(first, names) => {
                let place = usize::try_from(number - i128::from(first));
                match place.ok().and_then(|place| names.get(place)) {
                    Some(name) => write!(f, "{number} ({name})"),
                    None => write!(f, "{number}"),
                }
            }
        })
    }

    /// All numbers from the least to the most; names one by one.
    pub fn range(self, least: i128, most: i128) -> impl Display {
        from_fn(move |f| match self {
            _ if least == most => write!(f, "{}", self.words(least)),
            Unit::Named(..) => write!(f, "{}", self.one_of(least..=most)),
            _ => write!(f, "{} to {}", self.words(least), self.words(most)),
        })
    }

    /// Numbers of which one is to be chosen, each named once.
    pub fn one_of(self, numbers: impl Iterator<Item = i128> + Clone) -> impl Display {
        from_fn(move |f| {
            let numbers: BTreeSet<i128> = numbers.clone().collect();
            let words = numbers.iter().map(|&number| self.words(number));
            f.write_str(&listed(words, "or"))
        })
    }
}
