//! Times of the margin on books of three sizes, on two whose losses are near or
//! equal, and on two full of repos, one with payments inside their term, by the
//! engine and by the model, and of the other calls on the largest.
//!
//! `margin [--model] [BOOK]`: a book file in place of these; the model is
//! timed on the full ones too where it is asked for.

use seddolki::{Book, Date};
use seddolki_bench::{
    best_in_turns, best_time, paying_repo_book, ratio, repo_book, shown, time_on, work, Work,
};
use seddolki_books::{
    assemble, full_book, near_tie_book, small_book, typical_book, zero_component_book,
};
use seddolki_model::{accept, BLOCK};
use std::error::Error;
use std::time::Duration;

fn main() -> Result<(), Box<dyn Error>> {
    let mut arguments: Vec<String> = std::env::args().skip(1).collect();
    let asked = arguments.iter().position(|argument| argument == "--model");
    let with_model = asked.map(|place| arguments.remove(place)).is_some();
    println!("book           curves  trades    flows  valuations      engine       model  ratio");
    if let Some(path) = arguments.first() {
        let book = Book::from_bytes(std::fs::read(path)?);
        time_margin("named", &book, with_model)?;
        return time_other_calls(book);
    }
    time_margin("small", &book_of(&small_book()), true)?;
    time_margin("typical", &book_of(&typical_book()), true)?;
    time_margin("near ties", &book_of(&near_tie_book()), true)?;
    time_margin("a component 0", &book_of(&zero_component_book()), true)?;
    time_margin("repos", &book_of(&repo_book()), with_model)?;
    time_margin("paying repos", &book_of(&paying_repo_book()), with_model)?;
    time_margin("full", &book_of(&full_book()), with_model)?;
    time_other_calls(book_of(&full_book()))
}

fn book_of(parts: &accept::Book) -> Book {
    Book::from_bytes(assemble(parts))
}

/// One line of the table.
fn time_margin(name: &str, book: &Book, with_model: bool) -> Result<(), Box<dyn Error>> {
    let (bytes, day) = (book.as_bytes(), book.valuation_day()?);
    let parts = accept(bytes, bytes.len()).map_err(|refusal| refusal.to_string())?;
    let Work { flows, valuations } = work(&parts);
    let engine = best_time(|| book.margin(day));
    let model = with_model.then(|| best_time(|| model_margin(bytes, day)));
    println!(
        "{name:<14} {:>6}  {:>6}  {flows:>7}  {valuations:>10}  {:>10}  {:>10}  {:>5}",
        parts.curves.len(),
        parts.trades.len(),
        shown(engine),
        model.map(shown).unwrap_or_default(),
        model
            .map(|model| format!("{:.1}", ratio(model, engine)))
            .unwrap_or_default(),
    );
    Ok(())
}

fn model_margin(bytes: &[u8], day: Date) -> [u8; BLOCK] {
    let mut report = [0; BLOCK];
    seddolki_model::margin(bytes, bytes.len(), day, &mut report);
    report
}

/// The calls that value nothing, each on a copy of a book, the copying not
/// counted. A strike moves every trade behind its position; the trade appended
/// is the first, which was struck before.
fn time_other_calls(book: Book) -> Result<(), Box<dyn Error>> {
    let day = book.valuation_day()?;
    let count = book.records()?.count();
    let Some(last) = count.checked_sub(1) else {
        return Ok(());
    };
    let trade = book.read(0)?;
    let mut shorter = book.clone();
    shorter.strike(day, 0)?;
    let strike = |position| time_on(book.clone(), |book| book.strike(day, position));
    let calls: [(&str, &dyn Fn() -> Duration); 6] = [
        ("check", &|| time_on(book.clone(), |book| book.check())),
        ("read", &|| time_on(book.clone(), |book| book.read(last))),
        ("strike first", &|| strike(0)),
        ("strike middle", &|| strike(count / 2)),
        ("strike last", &|| strike(last)),
        ("append", &|| {
            time_on(shorter.clone(), |book| book.append(day, &trade))
        }),
    ];
    let times = best_in_turns(&calls.map(|(_, call)| call));
    for ((name, _), time) in calls.iter().zip(times) {
        println!("{name:<13}  {:>10}", shown(time));
    }
    Ok(())
}
