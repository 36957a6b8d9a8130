//! The day on which a command is run.

use crate::arguments::OnDay;
use crate::ended::Ended;
use crate::trades::by_ground;
use chrono::{Datelike, Local, NaiveDate};
use seddolki::{Book, Date, Ground, Record};
use std::fmt::{self, Display, Formatter};

/// The day that the engine is given.
#[derive(Clone, Copy, Debug)]
pub struct CurrentDay {
    pub date: Date,
    /// Whether it was said, and not taken from the clock.
    said: bool,
}

impl CurrentDay {
    /// The day that was said, or else today.
    pub fn of(arguments: OnDay) -> Result<Self, Ended> {
        let said = arguments.day.is_some();
        let date = arguments.day.map_or_else(today, Ok)?;
        Ok(CurrentDay { date, said })
    }

    /// Refuses an accepted book whose own day is another. The engine is asked
    /// for a preview of no trade: it tests the day first.
    pub fn refuse_other_day(self, name: &str, book: &Book, own: Date) -> Result<(), Ended> {
        match book.preview(self.date, &Record::default()) {
            Err(refusal) if refusal.ground == Ground::ValuationDay => {
                let (words, refused) = (own.in_words(), by_ground(refusal));
                Err(Ended::refused(format!(
                    "{name}: the book is for {words}, and {self}: {refused}; \
                     say --day {own} if that day is meant"
                )))
            }
            _ => Ok(()),
        }
    }
}

impl Display for CurrentDay {
    /// `today is 15 November 2026`.
    fn fmt(&self, f: &mut Formatter<'_>) -> fmt::Result {
        let day = if self.said { "the day said" } else { "today" };
        write!(f, "{day} is {}", self.date.in_words())
    }
}

/// The date by the clock and the time zone: nothing else looks at them.
fn today() -> Result<Date, Ended> {
    date_of(Local::now().date_naive())
}

fn date_of(day: NaiveDate) -> Result<Date, Ended> {
    let year = u32::try_from(day.year()).ok();
    let date = year.and_then(|year| Date::from_calendar(year, day.month(), day.day()));
    date.ok_or_else(|| {
        let first = Date::FIRST.in_words();
        Ended::Failed(format!(
            "the clock says {day}, and no book is for a day before {first}; say --day DATE"
        ))
    })
}

#[cfg(test)]
mod tests {
    use super::*;

    fn found(text: &str) -> Result<String, u8> {
        let date = date_of(text.parse().unwrap());
        date.map(|date| date.to_string())
            .map_err(|ended| ended.status())
    }

    #[test]
    fn a_day_of_the_clock_is_the_same_date() {
        for day in ["2000-01-01", "2026-11-16", "2096-02-29", "9999-12-31"] {
            assert_eq!(found(day), Ok(day.into()));
        }
    }

    #[test]
    fn a_clock_that_was_never_set_is_told() {
        for day in ["1999-12-31", "1970-01-01", "-0044-03-15"] {
            assert_eq!(found(day), Err(3));
        }
    }
}
