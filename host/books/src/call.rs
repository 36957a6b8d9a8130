//! The entries of the engine: what each is given, how both implementations
//! are called, and what can be wrong with what it is asked.

use crate::{
    draw_bootstrap, draw_position, draw_present_value, draw_preview, draw_record_bytes,
    draw_report_space, draw_statement, CallFault, Done, Draw,
};
use seddolki::lent;
use seddolki_model as model;
use seddolki_model::{valuation_day, Answer, Book, Date, Ground, Quote, BLOCK, RECORD};
use std::collections::BTreeSet;

/// Who answers a call.
#[derive(Clone, Copy, Debug)]
pub enum Engine {
    /// The proved one, by its archive.
    Proved,
    /// The second implementation.
    Model,
}

/// What is looked at before what is asked.
#[derive(Clone, Copy, Debug, PartialEq, Eq)]
pub enum Takes {
    Nothing,
    Book,
    /// The book is to be for the current day.
    BookOnDay,
}

/// What holds for a call whatever it is given.
pub struct Entry {
    pub name: &'static str,
    pub takes: Takes,
    /// What can be wrong with what is asked, in the order in which it is
    /// looked for.
    pub asked: fn() -> Vec<Vec<CallFault>>,
    /// What it can come to where nothing is wrong.
    pub done: fn() -> Vec<Done>,
    pub(crate) draw: fn(&mut Draw, &Book) -> Call,
}

impl Entry {
    /// Every ground that it can answer.
    pub fn grounds(&self) -> BTreeSet<Ground> {
        let book = Ground::ON_BOOK
            .iter()
            .filter(|_| self.takes != Takes::Nothing);
        let day = (self.takes == Takes::BookOnDay).then_some(Ground::ValuationDay);
        let asked = (self.asked)().into_iter().flatten().map(CallFault::ground);
        book.copied().chain(day).chain(asked).collect()
    }
}

/// A call, the book that it is lent, and the current day.
#[derive(Clone, Debug, PartialEq, Eq)]
pub struct Case {
    pub lent: Vec<u8>,
    pub used: usize,
    pub day: Date,
    pub call: Call,
}

/// The answer, and the case with all that was lent as the call left it.
#[derive(Clone, Debug, PartialEq, Eq)]
pub struct Outcome {
    pub answer: Answer,
    pub after: Case,
}

impl Case {
    /// Whether the header names another day; not where the lent bytes end
    /// before the header does.
    pub fn is_of_another_day(&self) -> bool {
        self.lent.len() >= BLOCK && valuation_day(&self.lent) != self.day
    }
}

macro_rules! entries {
    (
        $lent:ident, $used:ident, $day:ident;
        $($call:ident { $($field:ident: $type:ty),* } = $function:ident($($argument:expr),*),
            $takes:ident, $asked:expr, $done:expr, $draw:expr;)*
    ) => {
        /// A call with what it is given beside the book, lent bytes included.
        #[derive(Clone, Debug, PartialEq, Eq)]
        pub enum Call {
            $($call { $($field: $type),* }),*
        }

        impl Call {
            pub fn name(&self) -> &'static str {
                match self {
                    $(Call::$call { .. } => stringify!($function)),*
                }
            }
        }

        pub const ENTRIES: &[Entry] = &[$(Entry {
            name: stringify!($function),
            takes: Takes::$takes,
            asked: $asked,
            done: $done,
            draw: $draw,
        }),*];

        impl Case {
            pub fn run(&self, engine: Engine) -> Outcome {
                let mut after = self.clone();
                let ($lent, $used, $day) = (&mut after.lent, after.used, after.day);
                let answer = match (&mut after.call, engine) {$(
                    (Call::$call { $($field),* }, Engine::Proved) => lent::$function($($argument),*),
                    (Call::$call { $($field),* }, Engine::Model) => model::$function($($argument),*),
                )*};
                Outcome { answer, after }
            }
        }
    };
}

entries! {
    lent, used, day;
    Check {} = check(lent, used),
        Book, Vec::new, Done::plain, |_, _| Call::Check {};
    Margin { report: Vec<u8> } = margin(lent, used, day, report),
        BookOnDay, || vec![vec![CallFault::Space]], Done::plain,
        |draw, _| Call::Margin { report: draw_report_space(draw) };
    Append { record: [u8; RECORD] } = append(lent, used, day, record),
        BookOnDay, CallFault::of_append, Done::plain,
        |draw, book| Call::Append { record: draw_record_bytes(draw, book) };
    Strike { position: usize } = strike(lent, used, day, *position),
        BookOnDay, || vec![vec![CallFault::Position]], Done::plain,
        |draw, book| Call::Strike { position: draw_position(draw, book) };
    Read { position: usize, record: [u8; RECORD] } = read(lent, used, *position, record),
        Book, || vec![vec![CallFault::Position]], Done::plain, |draw, book| Call::Read {
            position: draw_position(draw, book),
            record: [draw.number() as u8; RECORD],
        };
    PresentValue { amount: u64, rate: u64, day: u64, tolerance: u64 }
        = present_value(*amount, *rate, *day, tolerance),
        Nothing, || vec![vec![CallFault::Limits]], Done::plain, |draw, _| draw_present_value(draw);
    Preview { record: [u8; RECORD], report: Vec<u8> } = preview(lent, used, day, record, report),
        BookOnDay, CallFault::of_preview, Done::previewed, draw_preview;
    Statement { page: Vec<u8> } = statement(lent, used, day, page),
        BookOnDay, || vec![vec![CallFault::Space]], Done::stated, draw_statement;
    Bootstrap { quote: Quote } = bootstrap(lent, used, day, quote),
        BookOnDay, CallFault::of_bootstrap, Done::lengthened, draw_bootstrap;
}

/// The entry of a name.
pub fn entry(name: &str) -> &'static Entry {
    let mut all = ENTRIES.iter();
    all.find(|entry| entry.name == name)
        .expect("an entry has that name")
}
