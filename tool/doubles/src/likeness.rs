//! What is alike in two trades.

use seddolki_format::Record;
use seddolki_model::flows::second_leg;
use std::fmt::{self, Display, Formatter};

/// How two trades are alike. A leg is cash of the repo; what its security
/// pays, inside the term or behind it, is none.
#[derive(Clone, Copy, Debug, PartialEq, Eq, Hash)]
pub enum Likeness {
    /// The same byte for byte.
    Same,
    /// Two repos of the same side, curves, cash, rate, term and value day 2;
    /// one has its first leg settled, the other has not. Security curves
    /// count where both have a security. Kind, security and nominal do not
    /// count.
    SecondLeg,
    /// Two repos of opposite sides; one begins on the other's value day 2, its
    /// first leg not settled, with the other's second leg as its cash. Its
    /// first leg is then the other's second leg again: same day, amount and
    /// sign. Curves do not count.
    SecondLegAsFirst,
    /// Opposite sides, all else alike.
    Opposite,
    /// All alike but one field, which is not the side. It has the name that
    /// [`Record`] gives it; `price_or_rate` is `clean_price` or `repo_rate`.
    OneField(&'static str),
}

impl Likeness {
    /// How two trades are alike, in either order, if they are; where two
    /// cases hold, the first by the order of the list. The records need not
    /// be accepted by a book.
    ///
    /// ```
    /// use seddolki_doubles::Likeness;
    /// use seddolki_format::Record;
    ///
    /// let bought = Record { kind: 1, side: 1, nominal: 100_000, ..Record::default() };
    /// let sold = Record { side: 2, ..bought };
    /// let more = Record { nominal: 200_000, ..bought };
    /// assert_eq!(Likeness::between(&bought, &bought), Some(Likeness::Same));
    /// assert_eq!(Likeness::between(&bought, &sold), Some(Likeness::Opposite));
    /// assert_eq!(Likeness::between(&bought, &more), Some(Likeness::OneField("nominal")));
    /// assert_eq!(Likeness::between(&sold, &more), None);
    /// ```
    pub fn between(one: &Record, other: &Record) -> Option<Likeness> {
        if one == other {
            return Some(Likeness::Same);
        }
        let either = |holds: fn(&Record, &Record) -> bool| holds(one, other) || holds(other, one);
        if either(is_second_leg) {
            return Some(Likeness::SecondLeg);
        }
        if either(begins_with_second_leg) {
            return Some(Likeness::SecondLegAsFirst);
        }
        only_difference(one, other).map(|field| match field {
            "side" => Likeness::Opposite,
            "price_or_rate" if one.is_repo() => Likeness::OneField("repo_rate"),
            "price_or_rate" => Likeness::OneField("clean_price"),
            _ => Likeness::OneField(field),
        })
    }

    /// Whether a trade so alike is to be taken only if its user says that it
    /// is meant; the others are told, and taken.
    pub fn refused(self) -> bool {
        match self {
            Likeness::Same | Likeness::SecondLeg | Likeness::SecondLegAsFirst => true,
            Likeness::Opposite | Likeness::OneField(_) => false,
        }
    }

    /// A short name.
    pub fn name(self) -> &'static str {
        match self {
            Likeness::Same => "same",
            Likeness::SecondLeg => "second leg",
            Likeness::SecondLegAsFirst => "second leg as first",
            Likeness::Opposite => "opposite",
            Likeness::OneField(_) => "one field",
        }
    }
}

impl Display for Likeness {
    fn fmt(&self, f: &mut Formatter<'_>) -> fmt::Result {
        f.write_str(self.name())?;
        match self {
            Likeness::OneField(field) => write!(f, ", {}", field.replace('_', " ")),
            _ => Ok(()),
        }
    }
}

/// Whether a trade has the other's second leg for its own, settled or first.
pub(crate) fn repeats_second_leg(trade: &Record, other: &Record) -> bool {
    is_second_leg(trade, other) || begins_with_second_leg(trade, other)
}

fn is_second_leg(settled: &Record, whole: &Record) -> bool {
    settled.first_leg_settled()
        && begins(whole)
        && settled.side == whole.side
        && settled.cash_curve == whole.cash_curve
        && (settled.security_curve == whole.security_curve || !both_have_security(settled, whole))
        && settled.repo_cash == whole.repo_cash
        && settled.price_or_rate == whole.price_or_rate
        && settled.term == whole.term
        && settled.value_day_2 == whole.value_day_2
}

/// Where this does not hold, only the cash curves can be compared.
pub(crate) fn both_have_security(one: &Record, other: &Record) -> bool {
    one.has_security() && other.has_security()
}

fn begins_with_second_leg(repo: &Record, other: &Record) -> bool {
    begins(repo)
        && other.is_repo()
        && repo.side != other.side
        && repo.value_day_1 == other.value_day_2
        && u128::from(repo.repo_cash)
            == second_leg(other.repo_cash, other.price_or_rate, other.term)
}

/// A repo whose first leg is still to come.
fn begins(trade: &Record) -> bool {
    trade.is_repo() && !trade.first_leg_settled()
}

/// The name of the field in which alone two records differ.
fn only_difference(one: &Record, other: &Record) -> Option<&'static str> {
    let mut differing = differences(one, other)
        .into_iter()
        .filter_map(|(field, differs)| differs.then_some(field));
    let field = differing.next()?;
    differing.next().is_none().then_some(field)
}

/// Each field's name, and whether two records differ in it.
fn differences(one: &Record, other: &Record) -> [(&'static str, bool); 20] {
    macro_rules! compare {
        ($($field:ident)*) => {{
            // a list that lacks a field does not compile
            let Record { $($field),* } = one;
            [$((stringify!($field), *$field != other.$field)),*]
        }};
    }
    compare! {
        kind side phase security_curve cash_curve security zero
        value_day_1 value_day_2 first_payment_day period payments term
        coupon nominal repo_cash price_or_rate accrued settlement_index issue_index
    }
}
