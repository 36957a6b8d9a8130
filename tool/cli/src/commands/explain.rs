//! A ground of refusal in words, and where it applies.

use crate::arguments::Explain;
use crate::ended::Ended;
use crate::files::{read, BookFile};
use crate::printed::print;
use crate::trades::book_refused;
use seddolki::Ground;
use seddolki_model::rule;
use std::path::Path;

pub fn run(arguments: &Explain) -> Result<(), Ended> {
    let ground = arguments.number;
    let mut text = rule(ground);
    if let Some(path) = &arguments.book {
        text += &format!("\n{}\n", applied(ground, path)?);
    }
    print::result(&text)
}

/// Whether a book is refused by the ground, and where.
fn applied(ground: Ground, path: &Path) -> Result<String, Ended> {
    let (input, book) = read(path)?;
    let name = input.name.clone();
    let Err(refusal) = book.check() else {
        let words = BookFile::of(input, book)?.in_words();
        return Ok(format!("{name}: accepted, {words}"));
    };
    let other = match refusal.ground == ground {
        true => "",
        false => "not by this one, but ",
    };
    Ok(format!("{name}: {other}{}", book_refused(&book, refusal)))
}
