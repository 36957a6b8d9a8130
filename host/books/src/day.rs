//! The days that books are for and that calls are given, drawn at random.

use crate::Draw;
use seddolki_model::Date;

/// A day that a book is for, of November 2026 or of any time.
pub fn draw_valuation_day(draw: &mut Draw) -> Date {
    if draw.once_in(4) {
        let day = draw.within(1..=30) as u32;
        return Date::from_calendar(2026, 11, day).expect("November has 30 days");
    }
    Date::from_days(draw.edge(0..=u32::MAX.into()) as u32)
}

/// The day that a call is given on a book: mostly the book's.
pub fn draw_day(draw: &mut Draw, book: Date) -> Date {
    if draw.once_in(8) {
        draw_other_day(draw, book)
    } else {
        book
    }
}

/// Another day than the book's, each way equally often.
pub fn draw_other_day(draw: &mut Draw, book: Date) -> Date {
    let other = draw.pick(&OtherDay::ALL);
    other.draw(draw, book)
}

/// How a day that is given differs from the book's.
#[derive(Clone, Copy, Debug, PartialEq, Eq, PartialOrd, Ord)]
pub enum OtherDay {
    /// The book is for the day before.
    Yesterday,
    /// The book is for the day after.
    Tomorrow,
    /// In one byte alone, by its place.
    Byte(usize),
    /// In more than one byte, but not in each.
    SomeBytes,
    /// In each byte.
    EveryByte,
}

impl OtherDay {
    pub const ALL: [OtherDay; 8] = [
        OtherDay::Yesterday,
        OtherDay::Tomorrow,
        OtherDay::Byte(0),
        OtherDay::Byte(1),
        OtherDay::Byte(2),
        OtherDay::Byte(3),
        OtherDay::SomeBytes,
        OtherDay::EveryByte,
    ];

    /// That of a day given on a book; none if it is the book's.
    pub fn of(book: Date, given: Date) -> Option<Self> {
        let (book, given) = (book.days(), given.days());
        let change = (book ^ given).to_le_bytes();
        let places: Vec<usize> = (0..4).filter(|&place| change[place] != 0).collect();
        match places[..] {
            [] => None,
            _ if book.checked_add(1) == Some(given) => Some(OtherDay::Yesterday),
            _ if given.checked_add(1) == Some(book) => Some(OtherDay::Tomorrow),
            [place] => Some(OtherDay::Byte(place)),
            [_, _, _, _] => Some(OtherDay::EveryByte),
            _ => Some(OtherDay::SomeBytes),
        }
    }

    /// Such a day; now and then, at the ends of the calendar among them, it
    /// differs in another way.
    fn draw(self, draw: &mut Draw, book: Date) -> Date {
        let mut change = [(); 4].map(|()| draw.within(1..=u8::MAX.into()) as u8);
        let days = book.days();
        Date::from_days(match self {
            OtherDay::Yesterday => days.wrapping_add(1),
            OtherDay::Tomorrow => days.wrapping_sub(1),
            OtherDay::Byte(place) => days ^ u32::from(change[place]) << (8 * place),
            OtherDay::SomeBytes => {
                change[draw.place(4)] = 0;
                days ^ u32::from_le_bytes(change)
            }
            OtherDay::EveryByte => days ^ u32::from_le_bytes(change),
        })
    }
}
