//! What a call comes to: done, or refused for what is wrong first.

use crate::{added_node, page_length, Call, Case, Entry, Outcome, QuoteDamage, SHORTEST_PAGE};
use seddolki_model::{
    accept, accept_record, signs_of, Book, Ground, Layout, Record, BLOCK, FULL_BLOCK, MAX_BLOCKS,
    MAX_RATE, RECORD,
};
use std::cmp::Ordering;

/// Bytes of the longest book.
const LONGEST: usize = MAX_BLOCKS * BLOCK;

/// What of a call is wrong.
#[derive(Clone, Copy, Debug, PartialEq, Eq, PartialOrd, Ord)]
pub enum CallFault {
    /// The book, by a ground of its own.
    Book(Ground),
    /// The day, which is not the book's.
    Day,
    /// The record, by a ground of its own.
    Record(Ground),
    /// A new block is needed, and the book has 128.
    FullBook,
    /// A new block is needed, and the lent bytes end before it does.
    LentEnd,
    /// No trade has the position.
    Position,
    /// The quote, by what is wrong with it first.
    Quote(QuoteDamage),
    /// An amount, a rate or a day is above its limit.
    Limits,
    /// The report or the page does not fit.
    Space,
}

impl CallFault {
    pub(crate) fn of_append() -> Vec<Vec<Self>> {
        let record = Ground::ON_RECORD.iter().copied().map(Self::Record);
        vec![record.collect(), vec![Self::FullBook], vec![Self::LentEnd]]
    }

    pub(crate) fn of_preview() -> Vec<Vec<Self>> {
        [Self::of_append(), vec![vec![Self::Space]]].concat()
    }

    pub(crate) fn of_bootstrap() -> Vec<Vec<Self>> {
        vec![QuoteDamage::ALL.map(Self::Quote).into()]
    }

    /// The ground that answers.
    pub fn ground(self) -> Ground {
        match self {
            Self::Book(ground) | Self::Record(ground) => ground,
            Self::Day => Ground::ValuationDay,
            Self::FullBook | Self::LentEnd => Ground::BookSpace,
            Self::Position => Ground::Position,
            Self::Quote(damage) => damage.ground(),
            Self::Limits => Ground::ValueRange,
            Self::Space => Ground::ReportSpace,
        }
    }

    /// Whether it can be told that the other is wrong too. Of a wrong book
    /// neither its room nor its curves are known.
    fn is_seen_with(self, other: Self) -> bool {
        let of_any_book = [Self::Day, Self::Record(Ground::Form), Self::Space];
        !matches!(self, Self::Book(_)) || of_any_book.contains(&other)
    }
}

/// What a call that is done has come to, where that is told apart.
#[derive(Clone, Copy, Debug, PartialEq, Eq, PartialOrd, Ord)]
pub enum Done {
    Plain,
    /// Whether the trade would take a new block, and the lent length beside
    /// that of the longest book.
    Previewed {
        new_block: bool,
        lent: Ordering,
    },
    /// Whether lent bytes are left behind the page.
    Stated {
        behind: bool,
    },
    /// The new node's rate: the lowest, one between, or the highest.
    Lengthened(Ordering),
}

const ORDERINGS: [Ordering; 3] = [Ordering::Less, Ordering::Equal, Ordering::Greater];

impl Done {
    pub(crate) fn plain() -> Vec<Self> {
        vec![Self::Plain]
    }

    pub(crate) fn previewed() -> Vec<Self> {
        let both = |lent| [false, true].map(|new_block| Self::Previewed { new_block, lent });
        ORDERINGS.map(both).concat()
    }

    pub(crate) fn stated() -> Vec<Self> {
        [false, true].map(|behind| Self::Stated { behind }).into()
    }

    pub(crate) fn lengthened() -> Vec<Self> {
        ORDERINGS.map(Self::Lengthened).into()
    }

    fn of(case: &Case, book: &Book, outcome: &Outcome) -> Self {
        match &case.call {
            Call::Preview { .. } => Self::Previewed {
                new_block: needs_block(book),
                lent: case.lent.len().cmp(&LONGEST),
            },
            Call::Statement { page } => Self::Stated {
                behind: page.len() > page_length(book),
            },
            Call::Bootstrap { quote } => {
                Self::Lengthened(match added_node(outcome, quote).rate.into() {
                    0 => Ordering::Less,
                    MAX_RATE => Ordering::Greater,
                    _ => Ordering::Equal,
                })
            }
            _ => Self::Plain,
        }
    }
}

/// An ending, told further apart than by the ground.
#[derive(Clone, Copy, Debug, PartialEq, Eq, PartialOrd, Ord)]
pub enum Ending {
    Done(Done),
    /// Refused for the first fault; the next one is not to answer.
    Refused {
        fault: CallFault,
        next: Option<CallFault>,
    },
}

impl Ending {
    /// All those of an entry that is given a day.
    pub fn all(entry: &Entry) -> Vec<Self> {
        let book = Ground::ON_BOOK
            .iter()
            .map(|ground| CallFault::Book(*ground));
        let book = vec![book.collect(), vec![CallFault::Day]];
        let faults = [book, (entry.asked)()].concat();
        let mut all: Vec<Self> = (entry.done)().into_iter().map(Self::Done).collect();
        for (place, first) in faults.iter().enumerate() {
            for &fault in first {
                let later = faults[place + 1..].iter().flatten().copied();
                let next = later.filter(|later| fault.is_seen_with(*later)).map(Some);
                let next = [None].into_iter().chain(next);
                all.extend(next.map(|next| Self::Refused { fault, next }));
            }
        }
        all
    }

    /// That of a case, by its outcome.
    pub fn of(case: &Case, outcome: &Outcome) -> Self {
        let book = accept(&case.lent, case.used);
        let wrong = book.as_ref().err().map(|r| CallFault::Book(r.ground));
        let day = case.is_of_another_day().then_some(CallFault::Day);
        let asked = asked(case, book.as_ref().ok());
        let mut faults = wrong.into_iter().chain(day).chain(asked);
        match (faults.next(), &book) {
            (None, Ok(book)) => Self::Done(Done::of(case, book, outcome)),
            (Some(fault), _) => Self::Refused {
                fault,
                next: faults.next(),
            },
            (None, Err(_)) => unreachable!("a refused book is a fault"),
        }
    }

    /// The number that is to answer.
    pub fn number(self) -> u64 {
        match self {
            Self::Done(_) => 0,
            Self::Refused { fault, .. } => fault.ground().number(),
        }
    }

    /// Whether the day is wrong, first or behind the book.
    pub fn is_of_another_day(self) -> bool {
        matches!(
            self,
            Self::Refused {
                fault: CallFault::Day,
                ..
            } | Self::Refused {
                next: Some(CallFault::Day),
                ..
            }
        )
    }
}

/// What is wrong with what a case asks, by its book if that is accepted.
fn asked(case: &Case, book: Option<&Book>) -> Vec<CallFault> {
    let mut faults = match (&case.call, book) {
        (Call::Append { record } | Call::Preview { record, .. }, _) => {
            record_faults(case, book, record)
        }
        (Call::Strike { position }, Some(book)) if *position >= book.trades.len() => {
            vec![CallFault::Position]
        }
        (Call::Bootstrap { quote }, Some(book)) => {
            let damage = QuoteDamage::of(quote, &book.curves);
            damage.into_iter().map(CallFault::Quote).collect()
        }
        _ => vec![],
    };
    let is_short = match &case.call {
        Call::Margin { report } | Call::Preview { report, .. } => report.len() < BLOCK,
        Call::Statement { page } => page.len() < book.map_or(SHORTEST_PAGE, page_length),
        _ => false,
    };
    faults.extend(is_short.then_some(CallFault::Space));
    faults
}

/// What is wrong with a record, and with the room that the book has for it. Of
/// a record for a wrong book it is only known whether any takes its form.
fn record_faults(case: &Case, book: Option<&Book>, record: &[u8; RECORD]) -> Vec<CallFault> {
    let record = Record::decode(record);
    let Some(book) = book else {
        let has_form = signs_of(&record).is_some();
        return if has_form {
            vec![]
        } else {
            vec![CallFault::Record(Ground::Form)]
        };
    };
    let ground = accept_record(&record, &book.curves).err();
    let is_full = needs_block(book) && case.used == LONGEST;
    let is_short = needs_block(book) && case.lent.len() - case.used < BLOCK;
    let room = [
        (is_full, CallFault::FullBook),
        (is_short, CallFault::LentEnd),
    ];
    let room = room
        .into_iter()
        .filter_map(|(holds, fault)| holds.then_some(fault));
    ground
        .map(CallFault::Record)
        .into_iter()
        .chain(room)
        .collect()
}

/// Whether the last block is full, or there is none.
fn needs_block(book: &Book) -> bool {
    book.trades.len().is_multiple_of(FULL_BLOCK)
}
