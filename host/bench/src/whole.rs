//! Whole margins by the C interface, of which books they are taken, and how
//! much work they are.

use seddolki::{lent, Date, Refusal, Report};
use seddolki_books::{full_book, small_book, typical_book};
use seddolki_model::{scenarios, Book, Layout, BLOCK};
use std::collections::BTreeSet;

/// The generator's books of three sizes, by name.
pub fn sized_books() -> [(&'static str, Book); 3] {
    [
        ("small", small_book()),
        ("typical", typical_book()),
        ("full", full_book()),
    ]
}

/// The report of a book, every byte of which is used.
pub fn margin(book: &[u8], day: Date) -> Result<Report, Refusal> {
    let mut report = [0; BLOCK];
    Result::from(lent::margin(book, book.len(), day, &mut report))?;
    Ok(Report::decode(&report))
}

/// How much there is to value.
#[derive(Default)]
pub struct Work {
    pub flows: usize,
    /// Days with flows times scenarios.
    pub valuations: usize,
}

/// The work of a book's margin, summed over its curves.
pub fn work(book: &Book) -> Work {
    let mut work = Work::default();
    for curve in &book.curves {
        let flows = book.flows_on(curve);
        let days: BTreeSet<u64> = flows.iter().map(|flow| flow.day).collect();
        work.flows += flows.len();
        work.valuations += days.len() * scenarios(curve).len();
    }
    work
}
