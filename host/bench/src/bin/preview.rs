//! Processor times of a preview beside the margin of the same book with the
//! trade in it, taken in turn. A preview makes a copy of the book and adds the
//! trade there; the rest is that margin.

use seddolki::{Book, Refusal};
use seddolki_bench::{processor_times, ratio, shown, sized_books};
use seddolki_books::assemble;

fn main() -> Result<(), Refusal> {
    println!("book     trades  bytes      margin     preview  ratio");
    for (name, book) in sized_books() {
        time(name, Book::from_bytes(assemble(&book)))?;
    }
    Ok(())
}

/// One line of the table: the book's last trade is the one previewed.
fn time(name: &str, whole: Book) -> Result<(), Refusal> {
    let day = whole.valuation_day()?;
    let trades = whole.records()?.count();
    let trade = whole.read(trades - 1)?;
    let mut shorter = whole.clone();
    shorter.strike(day, trades - 1)?;
    assert_eq!(shorter.preview(day, &trade)?, whole.margin(day)?, "{name}");
    let [margin, preview] = processor_times(|| whole.margin(day), || shorter.preview(day, &trade));
    println!(
        "{name:<7}  {trades:>6}  {:>5}  {:>10}  {:>10}  {:>5.3}",
        whole.as_bytes().len(),
        shown(margin),
        shown(preview),
        ratio(preview, margin),
    );
    Ok(())
}
