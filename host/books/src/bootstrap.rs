//! Bootstraps drawn at random, and the node that one adds.

use crate::{damage_quote, draw_quote, Call, Draw, Outcome, QuoteDamage};
use seddolki_model::{accept, Book, Node, Quote, BOND};

/// The node that a bootstrap has added.
pub fn added_node(outcome: &Outcome, quote: &Quote) -> Node {
    let after = &outcome.after;
    let book = accept(&after.lent, after.used).expect("a lengthened curve is accepted");
    *book.curves[quote.curve - 1].last_node()
}

/// With a quote accepted, spoiled, or of random numbers.
pub(crate) fn draw_bootstrap(draw: &mut Draw, book: &Book) -> Call {
    let whole = draw_quote(draw, &book.curves);
    let quote = match draw.within(0..=7) {
        0..=3 => whole,
        4..=6 => {
            let damage = draw.pick(&QuoteDamage::ALL);
            damage_quote(draw, &whole, &book.curves, damage).unwrap_or(whole)
        }
        _ => draw_noise(draw, &whole),
    };
    Call::Bootstrap { quote }
}

/// The bond's bytes from a place on, or all but the bond.
fn draw_noise(draw: &mut Draw, whole: &Quote) -> Quote {
    if draw.once_in(4) {
        return Quote {
            curve: draw.number() as usize,
            cash: draw.number(),
            components: [(); 3].map(|()| draw.number() as i32),
            ..*whole
        };
    }
    let mut quote = *whole;
    let start = draw.place(BOND);
    let random = draw.bytes(BOND - start);
    quote.bond[start..].copy_from_slice(&random);
    quote
}
