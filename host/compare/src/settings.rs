//! How much is compared, and from which seed.

use seddolki_books::Draw;
use std::env;

const BOOKS: u64 = 2_000;
const CALLS: u64 = 20_000;

/// Random books in one run.
pub fn books() -> u64 {
    setting("SEDDOLKI_BOOKS", BOOKS)
}

/// Random calls in one run.
pub fn calls() -> u64 {
    setting("SEDDOLKI_CALLS", CALLS)
}

/// Whether a run is long enough to be held to reach every ground and form.
pub fn is_whole() -> bool {
    books() >= BOOKS && calls() >= CALLS
}

fn setting(name: &str, default: u64) -> u64 {
    let Ok(text) = env::var(name) else {
        return default;
    };
    text.parse()
        .unwrap_or_else(|_| panic!("{name} is no whole number: {text}"))
}

/// The draws of one run, one for each book or call.
pub struct Seeds(u64);

impl Seeds {
    /// From `SEDDOLKI_SEED`, 1 if it is not set; printed, so that a failed
    /// run can be had again.
    pub fn of_this_run() -> Self {
        let seed = setting("SEDDOLKI_SEED", 1);
        println!("SEDDOLKI_SEED={seed}");
        Seeds(Draw::new(seed).number())
    }

    /// The draw of a book or call by its number.
    pub fn draw(&self, number: u64) -> Draw {
        Draw::new(self.0.wrapping_add(number))
    }
}
