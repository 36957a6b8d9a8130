//! Calls on a book that uses all that is lent, on its own day, and what they
//! report.

use seddolki_books::{Call, Case, Draw, Outcome};
use seddolki_model::{valuation_day, Layout, Report, BLOCK};

/// A call on a book's bytes.
pub fn whole_case(bytes: Vec<u8>, call: Call) -> Case {
    Case {
        used: bytes.len(),
        day: valuation_day(&bytes),
        lent: bytes,
        call,
    }
}

/// The margin of a book, its space for the report at times longer than a block.
pub fn margin_case(draw: &mut Draw, bytes: Vec<u8>) -> Case {
    let behind = draw.place(9);
    let report = draw.bytes(BLOCK + behind);
    whole_case(bytes, Call::Margin { report })
}

/// What a margin or a preview shows, which is done.
pub fn report_of(outcome: &Outcome) -> Report {
    assert_eq!(outcome.answer.number, 0);
    match &outcome.after.call {
        Call::Margin { report } | Call::Preview { report, .. } => Report::decode(report),
        call => panic!("{} has no report", call.name()),
    }
}
