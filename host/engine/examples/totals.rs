//! Prints the totals of a book on a day: `totals BOOK DATE`, the date as 2026-11-16.

use seddolki::{Book, Date};

fn main() -> Result<(), Box<dyn std::error::Error>> {
    let arguments: Vec<String> = std::env::args().skip(1).collect();
    let [path, date] = &arguments[..] else {
        return Err("totals BOOK DATE".into());
    };
    let day: Date = date.parse()?;
    let report = Book::from_bytes(std::fs::read(path)?).margin(day)?;
    for (currency, figures) in report.present_currencies() {
        println!("{currency} total {}", figures.total);
    }
    Ok(())
}
