//! Whether books keep every rule, and which trades look keyed twice.

use crate::arguments::Check;
use crate::ended::Ended;
use crate::files::{one_stream, read, BookFile};
use crate::printed::{over_books, Table, Value};
use crate::trades::{book_refused, words};
use seddolki::Refusal;
use seddolki_doubles::{doubles, Likeness};
use seddolki_format::text::count;
use std::path::Path;

/// A book, accepted or not.
struct Checked {
    name: String,
    verdict: Result<BookFile, Refused>,
}

struct Refused {
    refusal: Refusal,
    why: String,
}

pub fn run(arguments: &Check) -> Result<u8, Ended> {
    let paths = &arguments.books;
    one_stream(paths)?;
    let (checked, mut worst) = over_books(paths, checked)?;
    for Checked { name, verdict } in &checked {
        if let Err(refused) = verdict {
            let ended = Ended::refused(format!("{name}: {}", refused.why));
            worst = worst.max(ended.told());
        }
    }
    let form = arguments.form;
    if !arguments.doubles {
        form.print(&[books_table(&checked)], |_| texts(&checked, accepted_text))?;
    } else {
        let tables = [books_table(&checked), doubles_table(&checked)];
        form.print(&tables, |_| texts(&checked, doubles_text))?;
    }
    Ok(worst)
}

fn checked(path: &Path) -> Result<Checked, Ended> {
    let (input, book) = read(path)?;
    let name = input.name.clone();
    let verdict = match book.check() {
        Ok(()) => Ok(BookFile::of(input, book)?),
        Err(refusal) => {
            let why = book_refused(&book, refusal);
            Err(Refused { refusal, why })
        }
    };
    Ok(Checked { name, verdict })
}

fn accepted(checked: &[Checked]) -> impl Iterator<Item = &BookFile> {
    checked.iter().filter_map(|one| one.verdict.as_ref().ok())
}

fn texts(checked: &[Checked], text: fn(&BookFile) -> String) -> String {
    accepted(checked).map(text).collect()
}

fn accepted_text(file: &BookFile) -> String {
    let (name, account) = (&file.name, file.in_words());
    let curves = count(file.parts.curves.len(), "curve");
    let trades = count(file.parts.trades.len(), "trade");
    format!("{name}: accepted, {account}, {curves}, {trades}\n")
}

fn doubles_text(file: &BookFile) -> String {
    let (name, mut text) = (&file.name, accepted_text(file));
    let found = doubles(&file.parts.trades);
    if found.is_empty() {
        text += &format!("{name}: no trade looks keyed twice\n");
    }
    for double in found {
        text += &format!("{name}: {double}\n");
        for trade in [double.earlier, double.later] {
            text += &format!("  {trade}: {}\n", words::trade(&trade.record));
        }
    }
    text
}

fn books_table(checked: &[Checked]) -> Table {
    let columns = "book accepted ground block why account valuation_day curves trades";
    let mut table = Table::new("books", columns);
    for Checked { name, verdict } in checked {
        let refused = verdict.as_ref().err();
        let block = |refused: &Refused| {
            let refusal = refused.refusal;
            refusal.names_block().then(|| Value::count(refusal.block))
        };
        let parts = verdict.as_ref().ok().map(|file| &file.parts);
        table.push([
            Value::text(name),
            Value::Flag(verdict.is_ok()),
            refused
                .map(|r| Value::count(r.refusal.ground.number() as usize))
                .into(),
            refused.and_then(block).into(),
            refused.map(|refused| Value::text(&refused.why)).into(),
            parts.map(|book| Value::Id(book.account)).into(),
            parts.map(|book| Value::date(book.valuation_day)).into(),
            parts.map(|book| Value::count(book.curves.len())).into(),
            parts.map(|book| Value::count(book.trades.len())).into(),
        ]);
    }
    table
}

/// The last column says whether append would take the later trade.
fn doubles_table(checked: &[Checked]) -> Table {
    let mut table = Table::new("doubles", "book earlier later likeness field taken");
    for file in accepted(checked) {
        for double in doubles(&file.parts.trades) {
            let field = match double.likeness {
                Likeness::OneField(field) => Value::text(field),
                _ => Value::Nothing,
            };
            table.push([
                Value::text(&file.name),
                Value::count(double.earlier.position),
                Value::count(double.later.position),
                Value::text(double.likeness.name()),
                field,
                Value::Flag(!double.likeness.refused()),
            ]);
        }
    }
    table
}
