//! Two trades that are alike, and what is to be said of them.

use crate::likeness::{both_have_security, repeats_second_leg, Likeness};
use seddolki_format::text::{decimal, MONEY};
use seddolki_format::Record;
use std::fmt::{self, Display, Formatter};

/// A trade and its position.
#[derive(Clone, Copy, Debug, PartialEq, Eq)]
pub struct Placed {
    /// Counted from 0.
    pub position: usize,
    /// The trade.
    pub record: Record,
}

impl Display for Placed {
    fn fmt(&self, f: &mut Formatter<'_>) -> fmt::Result {
        write!(f, "trade {}", self.position)
    }
}

/// Two trades that are alike.
#[derive(Clone, Copy, Debug, PartialEq, Eq)]
pub struct Double {
    /// The one with the lower position.
    pub earlier: Placed,
    /// The one with the higher position.
    pub later: Placed,
    /// What is alike.
    pub likeness: Likeness,
}

impl Double {
    /// The double that two trades make, if they are alike.
    pub(crate) fn of(one: Placed, other: Placed) -> Option<Double> {
        let likeness = Likeness::between(&one.record, &other.record)?;
        let (earlier, later) = if one.position < other.position {
            (one, other)
        } else {
            (other, one)
        };
        Some(Double {
            earlier,
            later,
            likeness,
        })
    }

    /// What is alike, in words, the two trades named so.
    ///
    /// ```
    /// use seddolki_doubles::doubles;
    /// use seddolki_format::Record;
    ///
    /// let bought = Record { kind: 1, side: 1, nominal: 100_000, ..Record::default() };
    /// let double = doubles(&[bought, Record { side: 2, ..bought }])[0];
    /// assert_eq!(
    ///     double.in_words("trade 0", "line 2"),
    ///     "line 2 is the opposite side of trade 0: all else is alike"
    /// );
    /// ```
    pub fn in_words(&self, earlier: &str, later: &str) -> String {
        match self.likeness {
            Likeness::Same => format!("{later} is the same as {earlier}, byte for byte"),
            Likeness::SecondLeg | Likeness::SecondLegAsFirst => self.legs_in_words(earlier, later),
            Likeness::Opposite => {
                format!("{later} is the opposite side of {earlier}: all else is alike")
            }
            Likeness::OneField(field) => {
                let field = field.replace('_', " ");
                format!("{later} differs from {earlier} in one field only: {field}")
            }
        }
    }

    fn legs_in_words(&self, earlier: &str, later: &str) -> String {
        let (first, second) = (&self.earlier.record, &self.later.record);
        let (repeats, whole, repo) = if repeats_second_leg(second, first) {
            (later, earlier, second)
        } else {
            (earlier, later, first)
        };
        let cash = decimal(repo.repo_cash, MONEY);
        if self.likeness == Likeness::SecondLegAsFirst {
            let day = repo.value_day_1;
            return format!(
                "{repeats} begins with the second leg of {whole}: \
                 other side, cash {cash} on day {day}"
            );
        }
        let curves = if both_have_security(first, second) {
            "curves"
        } else {
            "cash curve"
        };
        format!(
            "{repeats} is the second leg of {whole}: \
             same side, {curves}, cash {cash}, rate, term and value day 2"
        )
    }
}

impl Display for Double {
    fn fmt(&self, f: &mut Formatter<'_>) -> fmt::Result {
        f.write_str(&self.in_words(&self.earlier.to_string(), &self.later.to_string()))
    }
}
