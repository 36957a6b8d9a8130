//! A book in lent bytes, its trades followed beside them.

use crate::unlike::assert_alike;
use seddolki_books::{assemble, bytes_after, Call, Case};
use seddolki_model::{Answer, Book, Date, Layout};

/// Lent bytes as calls leave them, and the book that they are due to hold.
pub struct Followed {
    pub book: Book,
    pub lent: Vec<u8>,
    pub used: usize,
}

impl Followed {
    /// A book with these bytes behind it.
    pub fn new(book: Book, behind: &[u8]) -> Self {
        let bytes = assemble(&book);
        Followed {
            used: bytes.len(),
            lent: [&bytes, behind].concat(),
            book,
        }
    }

    /// Runs a call by both, follows the trades where it is done, and compares
    /// every lent byte with those of the book that is due.
    pub fn run(&mut self, call: Call, day: Date, number: u64) -> Answer {
        let case = Case {
            lent: std::mem::take(&mut self.lent),
            used: self.used,
            day,
            call,
        };
        let outcome = assert_alike(&case, number);
        self.lent = outcome.after.lent;
        if outcome.answer.number == 0 {
            self.follow(&case.call, outcome.answer.value as usize);
        }
        let due = bytes_after(&self.book, &case.lent, case.used);
        assert!(self.lent == due, "case {number}");
        outcome.answer
    }

    /// Does to the book what a call has done to its bytes; `value` is what an
    /// edit answers.
    fn follow(&mut self, call: &Call, value: usize) {
        match call {
            Call::Append { record } => self.book.trades.push(Layout::decode(record)),
            Call::Strike { position } => drop(self.book.trades.remove(*position)),
            Call::Read { .. } | Call::Check {} => return,
            _ => unreachable!("no other call is followed"),
        }
        self.used = value;
        assert_eq!(self.used, assemble(&self.book).len());
    }
}
