//! How the processor time of a margin grows with the trades, the scenarios
//! and the curves of a book.
//!
//! `growth FOLDER` writes `growth.csv` there, and prints it.

use seddolki_bench::{margin, middle, processor_time, work, Work};
use seddolki_books::{assemble, mixed_book};
use seddolki_model::{scenarios, Book};
use std::error::Error;
use std::fs;
use std::path::Path;
use std::time::Duration;

/// The middle of so many rounds counts.
const ROUNDS: usize = 5;

/// What is held while something else grows: a typical book.
const CURVES: u8 = 3;
const TRADES: usize = 200;
const STEPS: [u8; 3] = [3; 3];

/// Trades to a curve, while curves grow.
const TRADES_A_CURVE: usize = 60;

fn main() -> Result<(), Box<dyn Error>> {
    let folder = std::env::args().nth(1).ok_or("growth FOLDER")?;
    let with_trades = |trades| mixed_book(CURVES, trades, STEPS);
    let with_steps = |steps| mixed_book(CURVES, TRADES, steps);
    let with_curves = |curves: u8| mixed_book(curves, TRADES_A_CURVE * usize::from(curves), STEPS);
    let steps = [[3, 0, 0], [3, 3, 0], [3, 3, 1], [3, 3, 2], STEPS];
    let all = [
        ("trades", [200, 400, 600, 800, 1_000].map(with_trades)),
        ("scenarios a curve", steps.map(with_steps)),
        ("curves", [1, 2, 4, 6, 8].map(with_curves)),
    ];
    let mut table = String::from("grows,curves,trades,scenarios,flows,valuations,milliseconds\n");
    for (what, books) in all {
        let lines = books.iter().zip(times(&books));
        table.extend(lines.map(|(book, time)| line(what, book, time)));
    }
    print!("{table}");
    fs::write(Path::new(&folder).join("growth.csv"), table)?;
    Ok(())
}

/// The rounds go over all sizes in turn.
fn times(books: &[Book; 5]) -> [Duration; 5] {
    let bytes = books.each_ref().map(assemble);
    let mut times = [const { vec![] }; 5];
    for _ in 0..ROUNDS {
        for ((book, bytes), times) in books.iter().zip(&bytes).zip(&mut times) {
            times.push(processor_time(|| margin(bytes, book.valuation_day)));
        }
    }
    times.map(middle)
}

fn line(what: &str, book: &Book, time: Duration) -> String {
    let Work { flows, valuations } = work(book);
    let (curves, trades) = (book.curves.len(), book.trades.len());
    let scenarios = scenarios(&book.curves[0]).len();
    let milliseconds = 1e3 * time.as_secs_f64();
    format!("{what},{curves},{trades},{scenarios},{flows},{valuations},{milliseconds:.3}\n")
}
