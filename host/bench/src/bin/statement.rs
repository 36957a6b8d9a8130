//! Processor times of an account statement beside the margin of the same book,
//! taken in turn. A statement works out that margin, and writes a line for each
//! trade, curve and currency in place of the report.

use seddolki::lent::{self, PAGE};
use seddolki::Refusal;
use seddolki_bench::{paying_repo_book, processor_times, ratio, repo_book, shown, sized_books};
use seddolki_books::{assemble, buyer, most_trades};
use seddolki_model::{accept, Book, BLOCK};

fn main() -> Result<(), Refusal> {
    println!("book          trades   page      margin   statement  ratio");
    for (name, book) in sized_books() {
        time(name, &book)?;
    }
    time("repos", &repo_book())?;
    time("paying repos", &paying_repo_book())?;
    time("longest page", &longest_page_book()?)
}

/// The buyer's trade of document 01 as often as its book takes it: hardly
/// anything to value, and more lines than any other book has.
fn longest_page_book() -> Result<Book, Refusal> {
    let bytes = buyer();
    let mut book = accept(&bytes, bytes.len())?;
    book.trades = vec![book.trades[0]; most_trades(&book.curves)];
    Ok(book)
}

/// One line of the table.
fn time(name: &str, book: &Book) -> Result<(), Refusal> {
    let (bytes, day) = (assemble(book), book.valuation_day);
    let (mut report, mut page) = ([0; BLOCK], vec![0; PAGE]);
    let length = Result::from(lent::statement(&bytes, bytes.len(), day, &mut page))?;
    let [margin, statement] = processor_times(
        || lent::margin(&bytes, bytes.len(), day, &mut report),
        || lent::statement(&bytes, bytes.len(), day, &mut page),
    );
    println!(
        "{name:<12}  {:>6}  {length:>5}  {:>10}  {:>10}  {:>5.3}",
        book.trades.len(),
        shown(margin),
        shown(statement),
        ratio(statement, margin),
    );
    Ok(())
}
