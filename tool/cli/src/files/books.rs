//! Books in files.

use crate::arguments::{Edited, Waiting};
use crate::current_day::CurrentDay;
use crate::ended::Ended;
use crate::printed::{account_on, print};
use crate::trades::book_refused;
use seddolki::{Book, Date, Refusal, Report};
use seddolki_format::block::BLOCK;
use seddolki_format::limits::MAX_BLOCKS;
use seddolki_model::accept::{self, accept};
use seddolki_store::{self as store, shown, Failure, Input, Patience};
use std::path::Path;
use std::time::Duration;

/// Bytes of the largest book.
pub const LARGEST: usize = MAX_BLOCKS * BLOCK;

/// Bytes of the largest text that is read: several times a full book's trades.
const LARGEST_TEXT: usize = 8 << 20;

/// An accepted book, and where it was read.
pub struct BookFile {
    pub name: String,
    pub input: Input,
    pub book: Book,
    /// For display: every verdict and every margin is the engine's.
    pub parts: accept::Book,
    /// The day that the engine is given.
    day: Date,
}

impl BookFile {
    /// Of a book that the engine has accepted, on the book's own day.
    pub fn of(input: Input, book: Book) -> Result<Self, Ended> {
        let parts = parts(&input.name, &book)?;
        Ok(BookFile {
            name: input.name.clone(),
            input,
            book,
            day: parts.valuation_day,
            parts,
        })
    }

    /// The margin of the book.
    pub fn margin(&self) -> Result<Report, Ended> {
        self.answered(self.book.margin(self.day))
    }

    /// The page of the book.
    pub fn statement(&self) -> Result<String, Ended> {
        self.answered(self.book.statement(self.day))
    }

    /// What the engine answers, or its refusal with the book's name.
    pub fn answered<T>(&self, answer: Result<T, Refusal>) -> Result<T, Ended> {
        answer.map_err(|refusal| Ended::refused(format!("{}: {refusal}", self.name)))
    }

    /// Whose it is and for which day, in words.
    pub fn in_words(&self) -> String {
        account_on(self.parts.account, self.parts.valuation_day)
    }
}

/// The book in a file, accepted or not.
pub fn read(path: &Path) -> Result<(Input, Book), Failure> {
    let input = store::read_at_most(path, LARGEST)?;
    let book = Book::from_bytes(input.bytes.clone());
    Ok((input, book))
}

/// The book in a file, if the engine accepts it.
pub fn accepted(path: &Path) -> Result<BookFile, Ended> {
    let (input, book) = read(path)?;
    accept_book(&input.name, &book)?;
    BookFile::of(input, book)
}

/// The same, if it is for the current day.
pub fn accepted_on(day: CurrentDay, path: &Path) -> Result<BookFile, Ended> {
    let file = accepted(path)?;
    day.refuse_other_day(&file.name, &file.book, file.parts.valuation_day)?;
    Ok(BookFile {
        day: day.date,
        ..file
    })
}

fn accept_book(name: &str, book: &Book) -> Result<(), Ended> {
    book.check()
        .map_err(|refusal| Ended::refused(format!("{name}: {}", book_refused(book, refusal))))
}

/// The parts of a book that the engine has accepted.
fn parts(name: &str, book: &Book) -> Result<accept::Book, Ended> {
    let bytes = book.as_bytes();
    let reason = "accepted by the engine, and not by the second implementation";
    accept(bytes, bytes.len()).map_err(|_| Ended::Failed(format!("{name}: {reason}")))
}

/// The text of a file.
pub fn text(path: &Path) -> Result<Input, Ended> {
    let input = store::read_at_most(path, LARGEST_TEXT)?;
    if input.bytes.len() > LARGEST_TEXT {
        let reason = format!("{}: longer than any file of trades or curves", shown(path));
        return Err(Ended::refused(reason));
    }
    Ok(input)
}

/// Edits the book in a file; `change` gets the book and its parts. Where the
/// edit is refused, the file stays.
pub fn edit<T>(
    edited: &Edited,
    change: impl FnOnce(&mut Book, accept::Book) -> Result<T, Ended>,
) -> Result<T, Ended> {
    let path = &edited.book;
    refuse_dash(path)?;
    let name = shown(path);
    store::edit(path, LARGEST, &patience(edited.waiting), |bytes| {
        let mut book = Book::from_bytes(bytes);
        accept_book(&name, &book)?;
        let parts = parts(&name, &book)?;
        let result = change(&mut book, parts)?;
        Ok((book.as_bytes().to_vec(), result))
    })
}

/// The same for a book that is for the current day.
pub fn edit_on<T>(
    day: CurrentDay,
    edited: &Edited,
    change: impl FnOnce(&mut Book, accept::Book) -> Result<T, Ended>,
) -> Result<T, Ended> {
    edit(edited, |book, parts| {
        day.refuse_other_day(&shown(&edited.book), book, parts.valuation_day)?;
        change(book, parts)
    })
}

pub fn patience(waiting: Waiting) -> Patience<'static> {
    Patience {
        wait: Duration::from_secs(waiting.wait),
        say: &print::say,
    }
}

pub fn is_dash(path: &Path) -> bool {
    path == Path::new("-")
}

/// The name of a book or a text that is read.
pub fn name_of(path: &Path) -> String {
    let stream = is_dash(path).then(|| store::STANDARD_INPUT.into());
    stream.unwrap_or_else(|| shown(path))
}

/// Where a book is to be edited.
pub fn refuse_dash(path: &Path) -> Result<(), Ended> {
    let reason = "an edit takes a book in a file, and not standard input";
    Ended::misused(is_dash(path), reason)
}

/// Standard input can be read once.
pub fn one_stream(paths: &[impl AsRef<Path>]) -> Result<(), Ended> {
    let named = paths.iter().filter(|path| is_dash(path.as_ref())).count();
    let reason = "standard input (-) is named twice, and can be read once";
    Ended::misused(named > 1, reason)
}
