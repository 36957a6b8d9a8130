//! The engine beside a peer on the same books: values, then times taken in
//! turn.
//!
//! `peer PROGRAM [--rounds N] [BOOK ...]`: the generator's small, typical and
//! full book where no file is named. What is asked of a peer stands in the
//! library's `peer`. In its mode `cut` it has to agree, or the run fails. Its
//! modes `direct` and `curve` are timed; the engine's time is a whole call of
//! `seddolki_margin`, which looks at the book and works out its flows too.

use seddolki_bench::peer::Peer;
use seddolki_bench::{margin, middle, ratio, repeats, shown, sized_books, turn_time};
use seddolki_books::assemble;
use seddolki_model::{accept, valuation_day};
use std::error::Error;
use std::path::Path;

/// The middle of so many rounds is shown, unless another number is asked for.
const ROUNDS: usize = 5;

/// A double is off by at most this part of the sum of a curve's flows.
const DOUBLE: f64 = 1e-12;

type Done<T> = Result<T, Box<dyn Error>>;

fn main() -> Done<()> {
    let mut arguments: Vec<String> = std::env::args().skip(1).collect();
    let mut rounds = ROUNDS;
    if let Some(place) = arguments.iter().position(|word| word == "--rounds") {
        arguments.remove(place);
        rounds = arguments[place..].first().ok_or("--rounds N")?.parse()?;
        arguments.remove(place);
    }
    if arguments.is_empty() || rounds == 0 {
        return Err("peer PROGRAM [--rounds N] [BOOK ...]".into());
    }
    let program = arguments.remove(0);
    let peer = Peer { program };
    println!("book          engine      direct       curve  to direct  to curve  values differ by");
    for (name, book) in books(&arguments)? {
        let apart = compare(&peer, &book).map_err(|error| format!("{name}: {error}"))?;
        let times = time(&peer, &book, rounds)?;
        println!("{name:<9} {times}  {apart:>16}");
    }
    Ok(())
}

fn books(files: &[String]) -> Done<Vec<(String, Vec<u8>)>> {
    if files.is_empty() {
        let all = sized_books().map(|(name, book)| (name.into(), assemble(&book)));
        return Ok(all.into());
    }
    let read = |file: &String| {
        let bytes = std::fs::read(file).map_err(|error| format!("{file}: {error}"))?;
        let name = Path::new(file).file_stem().unwrap_or_default();
        Ok((name.to_string_lossy().into_owned(), bytes))
    };
    files.iter().map(read).collect()
}

/// The times of an accepted book, engine and peer in turn, and their ratios.
fn time(peer: &Peer, book: &[u8], rounds: usize) -> Done<String> {
    let day = valuation_day(book);
    let (mut engine, mut direct, mut curve) = (vec![], vec![], vec![]);
    for _ in 0..rounds {
        engine.push(turn_time(|| margin(book, day)));
        for (mode, times) in [("direct", &mut direct), ("curve", &mut curve)] {
            let often = times.first().copied().map_or(1, repeats);
            times.push(peer.time(book, often, mode)?);
        }
    }
    let [engine, direct, curve] = [engine, direct, curve].map(middle);
    Ok(format!(
        "{:>10}  {:>10}  {:>10}  {:>9.2}  {:>8.2}",
        shown(engine),
        shown(direct),
        shown(curve),
        ratio(engine, direct),
        ratio(engine, curve),
    ))
}

/// Whether the peer's values agree with the engine's: each base within the
/// curve's tolerance, each worst loss within twice that, the scenario the same.
fn compare(peer: &Peer, book: &[u8]) -> Done<String> {
    let parts = accept(book, book.len()).map_err(|refusal| refusal.to_string())?;
    let (report, valued) = (margin(book, parts.valuation_day)?, peer.value(book, "cut")?);
    let (mut furthest, mut count) = (0.0_f64, 0);
    for ((curve, ours), theirs) in parts.curves.iter().zip(&report.curves).zip(&valued) {
        let flows = parts.flows_on(curve);
        let amounts: f64 = flows.iter().map(|flow| flow.amount as f64).sum();
        let most = ours.tolerance as f64 + DOUBLE * amounts;
        let base = (theirs.base - ours.base as f64).abs() / most;
        let loss = (theirs.loss - ours.worst_loss as f64).abs() / (2.0 * most);
        if base.max(loss) > 1.0 || theirs.scenario != ours.scenario {
            return Err(format!("curve {}: {ours:?} and {theirs:?}", curve.id).into());
        }
        furthest = furthest.max(base).max(loss);
        count += 1;
    }
    if count != parts.curves.len() {
        return Err(format!("the peer shows {count} curves").into());
    }
    Ok(format!("{:.0}% of the bound", 100.0 * furthest))
}
