//! Books full of repos, with payments inside their term and without.

use seddolki_books::full_book;
use seddolki_model::{Book, Record, SPECIFIED, TERMS};

const TERM: u16 = *TERMS.end();

/// In millionths.
const REPO_RATE: u32 = 132_500;

/// As many specified repos as a book can have, in the bonds of the full book.
/// These pay some ten times inside the term.
pub fn paying_repo_book() -> Book {
    with_trades(repo)
}

/// The same repos in bonds that pay behind the term: what is left is the two
/// legs of each.
pub fn repo_book() -> Book {
    with_trades(|bond| Record {
        first_payment_day: bond.first_payment_day + TERM,
        ..repo(bond)
    })
}

fn with_trades(trade: impl Fn(&Record) -> Record) -> Book {
    let mut book = full_book();
    book.trades = book.trades.iter().map(trade).collect();
    book
}

/// A repo from the day of the purchase, for the nominal.
fn repo(bond: &Record) -> Record {
    Record {
        kind: SPECIFIED,
        phase: 1,
        value_day_2: bond.value_day_1 + TERM,
        term: TERM,
        repo_cash: bond.nominal,
        price_or_rate: REPO_RATE,
        accrued: 0,
        ..*bond
    }
}
