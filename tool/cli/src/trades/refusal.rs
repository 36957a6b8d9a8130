//! Refusals in words: the verdict is the engine's, and the second
//! implementation says where and why.

use seddolki::{Book, Ground, Quote, Record, Refusal};
use seddolki_format::block::Curve;
use seddolki_format::limits::{FULL_BLOCK, MAX_BLOCKS};
use seddolki_format::text::count;
use seddolki_model::{book_fault, quote_fault, record_fault, BookFault, Fault};
use seddolki_text::Column;

/// Where a refused book breaks its rule, and why.
pub fn where_and_why(book: &Book, refusal: Refusal) -> Option<BookFault> {
    let bytes = book.as_bytes();
    book_fault(bytes, bytes.len()).filter(|fault| fault.refusal() == refusal)
}

/// A refused book: where and why, then the ground.
pub fn book_refused(book: &Book, refusal: Refusal) -> String {
    match where_and_why(book, refusal) {
        Some(fault) => format!("{fault}: {}", by_ground(refusal)),
        None => refusal.to_string(),
    }
}

/// The ground and its block, without its sentence.
pub fn by_ground(refusal: Refusal) -> String {
    let number = refusal.ground.number();
    if refusal.names_block() {
        return format!("refused by ground {number} in block {}", refusal.block);
    }
    format!("refused by ground {number}")
}

/// A refused record of a book with these curves: the column, what is there
/// and what is due.
pub fn record_refused(record: &Record, curves: &[Curve], refusal: Refusal) -> String {
    if refusal.ground == Ground::BookSpace {
        let most = (MAX_BLOCKS - 1 - curves.len()) * FULL_BLOCK;
        let most = count(most, "trade");
        return format!("the book is full with {most}: {}", by_ground(refusal));
    }
    let fault = record_fault(record, curves);
    with_place(fault, refusal, |field| column_of(record, field))
}

/// A refused quote for a book with these curves: the option or the bond's
/// column, what is there and what is due.
pub fn quote_refused(quote: &Quote, curves: &[Curve], refusal: Refusal) -> String {
    with_place(quote_fault(quote, curves), refusal, |field| match field {
        "curve" | "cash" | "components" => format!("--{field}"),
        _ => column_of(&quote.purchase(), field),
    })
}

/// A fault behind the name of its place, if it is what was refused.
fn with_place(
    fault: Option<Fault>,
    refusal: Refusal,
    place: impl FnOnce(&str) -> String,
) -> String {
    match fault.filter(|fault| fault.ground == refusal.ground) {
        Some(fault) => {
            let sentence = without_codes(&fault.sentence());
            format!("{}: {sentence}: {}", place(fault.field), by_ground(refusal))
        }
        None => refusal.to_string(),
    }
}

fn column_of(record: &Record, field: &str) -> String {
    let column = Column::of_field(record, field);
    format!("column {}", column.map_or(field, |column| column.name))
}

/// A sentence with words alone where it has `2 (coupons)`, as a column has.
fn without_codes(sentence: &str) -> String {
    let is_code = |code: &str| !code.is_empty() && code.bytes().all(|byte| byte.is_ascii_digit());
    let mut text = String::new();
    for part in sentence.split_inclusive(')') {
        let coded = part
            .strip_suffix(')')
            .and_then(|part| part.split_once(" ("));
        let before = coded.map_or(part, |(before, _)| before);
        let start = before.rfind(' ').map_or(0, |blank| blank + 1);
        match coded.filter(|_| is_code(&before[start..])) {
            Some((_, word)) => text.extend([&before[..start], word]),
            None => text += part,
        }
    }
    text
}

#[cfg(test)]
mod tests {
    use super::without_codes;

    #[test]
    fn codes_give_way_to_their_words() {
        for (sentence, words) in [
            (
                "0 (none) is there, 2 (coupons) or 3 (x y) is due",
                "none is there, coupons or x y is due",
            ),
            (
                "6 is there, 7 is due: so (say) it",
                "6 is there, 7 is due: so (say) it",
            ),
            ("1 (open", "1 (open"),
        ] {
            assert_eq!(without_codes(sentence), words);
        }
    }
}
