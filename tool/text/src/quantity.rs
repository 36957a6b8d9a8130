//! Numbers of one kind: their decimal places, and the limits that a book
//! sets them.

use crate::decimal::{self, Decimals, MONEY, PERCENT};
use crate::fault::{faultless, shown};
use seddolki_format::limits::{AMOUNTS, MAX_COMPONENT, MAX_DAY};

/// What numbers of one kind look like. The limits are told where a text is
/// refused; the engine judges by them.
#[derive(Clone, Copy, Debug, PartialEq, Eq)]
pub struct Quantity {
    /// The decimal places.
    pub places: u32,
    /// The least that a book takes, in units of the last place.
    pub low: i64,
    /// The most that a book takes, in units of the last place.
    pub high: i64,
    /// What is counted, where the column's name does not tell; it follows the
    /// limits.
    pub unit: &'static str,
}

impl Quantity {
    /// With these places and limits.
    pub const fn new(places: u32, low: i64, high: i64) -> Self {
        Quantity {
            places,
            low,
            high,
            unit: "",
        }
    }

    /// Days up to the last that a book takes.
    pub const fn day(low: i64) -> Self {
        Quantity {
            unit: " days from the valuation day",
            ..Quantity::new(0, low, MAX_DAY as i64)
        }
    }

    /// A nominal, a repo's cash, or what a bond settles for.
    pub const AMOUNT: Quantity =
        Quantity::new(MONEY, *AMOUNTS.start() as i64, *AMOUNTS.end() as i64);

    /// How far a component moves a node.
    pub const COMPONENT: Quantity =
        Quantity::new(PERCENT, -MAX_COMPONENT as i64, MAX_COMPONENT as i64);

    /// The limits in words, as `1 to 730`, or `0 to 10,950 days from the
    /// valuation day`.
    pub fn allowed(&self, decimals: Decimals) -> String {
        let [low, high] =
            [self.low, self.high].map(|limit| decimal::grouped(limit, self.places, decimals));
        format!("{low} to {high}{}", self.unit)
    }

    /// Reads a number and hands it to its field, which has none where the
    /// number is too large for it.
    pub(crate) fn read<T>(
        &self,
        text: &str,
        decimals: Decimals,
        field: impl FnOnce(i64) -> Option<T>,
    ) -> Result<T, String> {
        let allowed = || self.allowed(decimals);
        let number = decimal::parse(text, self.places, decimals).map_err(|not_taken| {
            let advice = not_taken.advice.unwrap_or_else(allowed);
            format!("{}: {advice}", not_taken.reason)
        })?;
        field(number).ok_or_else(|| {
            let size = if number < self.low { "small" } else { "large" };
            format!("{} is too {size}: {}", shown(text), allowed())
        })
    }
}

/// As many numbers as there are quantities, with decimal points, each in units
/// of its last place.
///
/// # Errors
/// All that is wrong, or that there are fewer or more.
pub fn numbers<T, const N: usize>(
    texts: &[&str],
    quantities: [Quantity; N],
) -> Result<[T; N], Vec<String>>
where
    T: TryFrom<i64> + Copy + Default,
{
    if texts.len() != N {
        return Err(vec![miscounted(N, texts)]);
    }
    let mut all = [T::default(); N];
    let mut wrong = vec![];
    for ((number, text), quantity) in all.iter_mut().zip(texts).zip(quantities) {
        match quantity.read(text, Decimals::Point, |value| T::try_from(value).ok()) {
            Ok(value) => *number = value,
            Err(message) => wrong.push(message),
        }
    }
    faultless(all, wrong)
}

/// How many numbers are due, and how many there are.
pub(crate) fn miscounted(due: usize, texts: &[&str]) -> String {
    let plural = if due == 1 { "" } else { "s" };
    format!("{due} number{plural} due, {} found", texts.len())
}
