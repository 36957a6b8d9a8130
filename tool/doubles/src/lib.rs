//! Trades that may have been keyed twice.
//!
//! The search stands beside the engine and never changes its verdict: a book
//! accepts doubles, and an append takes them. A caller searches first, and
//! asks its user where a double is one to be refused.

#![forbid(unsafe_code)]

mod double;
mod likeness;
mod standing;

pub use double::{Double, Placed};
pub use likeness::Likeness;
pub use standing::{stands_already, Standing};

use likeness::repeats_second_leg;
use seddolki_format::Record;

/// The doubles in a whole book, by position of the later, then of the
/// earlier.
///
/// A trade can be like hundreds of others. Of those before it that are like
/// it in the same way only the first is listed: in a book of equal trades
/// each is listed once, beside the first of all. Each field of
/// [`Likeness::OneField`] is a way of its own; and to repeat another's
/// second leg is one way, to have one's own repeated by it another.
///
/// ```
/// use seddolki_doubles::{doubles, Likeness};
/// use seddolki_format::Record;
///
/// // a pool repo of 1,000.00 at 13.2% for 7 days from today
/// let repo = Record {
///     kind: 2,
///     side: 1,
///     phase: 2,
///     security_curve: 1,
///     cash_curve: 1,
///     security: 1,
///     value_day_2: 7,
///     first_payment_day: 90,
///     term: 7,
///     nominal: 110_000,
///     repo_cash: 100_000,
///     price_or_rate: 132_000,
///     ..Record::default()
/// };
/// let settled = Record { phase: 3, ..repo };
/// let found = doubles(&[repo, settled]);
/// assert_eq!(found.len(), 1);
/// assert_eq!(found[0].likeness, Likeness::SecondLeg);
/// assert!(found[0].likeness.refused());
/// assert_eq!(
///     found[0].to_string(),
///     "trade 1 is the second leg of trade 0: \
///      same side, curves, cash 1,000.00, rate, term and value day 2"
/// );
///
/// let returned = Record { side: 2, value_day_1: 7, value_day_2: 8, term: 1, ..repo };
/// let returned = Record { repo_cash: 100_215, ..returned };
/// assert_eq!(
///     doubles(&[returned, repo])[0].to_string(),
///     "trade 0 begins with the second leg of trade 1: \
///      other side, cash 1,002.15 on day 7"
/// );
/// ```
pub fn doubles(trades: &[Record]) -> Vec<Double> {
    doubles_among(&[], trades)
}

/// The doubles that new trades make with those of a book and with each
/// other, as they would be appended in turn; listed as by [`doubles`].
///
/// ```
/// use seddolki_doubles::doubles_among;
/// use seddolki_format::Record;
///
/// let trade = |nominal| Record { kind: 1, side: 1, nominal, ..Record::default() };
/// let found = doubles_among(&[trade(1)], &[trade(2), trade(2)]);
/// let told: Vec<String> = found.iter().map(|double| double.to_string()).collect();
/// assert_eq!(
///     told,
///     [
///         "trade 1 differs from trade 0 in one field only: nominal",
///         "trade 2 differs from trade 0 in one field only: nominal",
///         "trade 2 is the same as trade 1, byte for byte",
///     ]
/// );
/// ```
pub fn doubles_among(book: &[Record], new: &[Record]) -> Vec<Double> {
    let trades = placed(book.iter().chain(new));
    (book.len()..trades.len())
        .flat_map(|later| first_of_each_way(trades[later], &trades[..later]))
        .collect()
}

/// The doubles that the trade at a position makes with all others, before
/// and behind it, by their positions: what an editor asks that has changed a
/// trade in its place. Of those that are like it in the same way, in the
/// sense of [`doubles`], only the first is listed. None where no trade has
/// that position.
///
/// ```
/// use seddolki_doubles::doubles_at;
/// use seddolki_format::Record;
///
/// let trade = |nominal| Record { kind: 1, side: 1, nominal, ..Record::default() };
/// let found = doubles_at(&[trade(3), trade(3), trade(5), trade(5)], 1);
/// assert_eq!(found.len(), 2);
/// assert_eq!((found[0].earlier.position, found[0].later.position), (0, 1));
/// assert_eq!((found[1].earlier.position, found[1].later.position), (1, 2));
/// ```
pub fn doubles_at(trades: &[Record], position: usize) -> Vec<Double> {
    let mut others = placed(trades.iter());
    if position >= others.len() {
        return vec![];
    }
    let trade = others.remove(position);
    first_of_each_way(trade, &others)
}

fn placed<'a>(trades: impl Iterator<Item = &'a Record>) -> Vec<Placed> {
    trades
        .enumerate()
        .map(|(position, &record)| Placed { position, record })
        .collect()
}

/// Of the others that are like a trade in the same way, the first.
fn first_of_each_way(trade: Placed, others: &[Placed]) -> Vec<Double> {
    let mut found: Vec<(Double, bool)> = vec![];
    for &other in others {
        let Some(double) = Double::of(trade, other) else {
            continue;
        };
        let repeats = repeats_second_leg(&trade.record, &other.record);
        let known =
            |(known, way): &(Double, bool)| known.likeness == double.likeness && *way == repeats;
        if !found.iter().any(known) {
            found.push((double, repeats));
        }
    }
    found.into_iter().map(|(double, _)| double).collect()
}
