//! Dates of the Gregorian calendar, from 1 January 2000 on.

use std::error::Error;
use std::fmt::{self, Display, Formatter};
use std::str::FromStr;

/// A day, by the days since 1 January 2000. The calendar has no end, so every
/// number is a date.
///
/// ```
/// use seddolki_format::Date;
///
/// let day: Date = "2026-11-15".parse()?;
/// assert_eq!(day.days(), 9_815);
/// assert_eq!(day.to_string(), "2026-11-15");
/// assert_eq!(day.in_words(), "15 November 2026");
/// # Ok::<(), seddolki_format::date::NoDate>(())
/// ```
#[derive(Clone, Copy, Debug, PartialEq, Eq, PartialOrd, Ord, Hash)]
#[repr(transparent)]
pub struct Date(u32);

const FIRST_YEAR: u32 = 2000;

/// Years after which the calendar repeats itself, and their days.
const CYCLE_YEARS: u32 = 400;
const CYCLE_DAYS: u32 = days_of_years(CYCLE_YEARS) as u32;

/// In order.
const MONTHS: &str = "January February March April May June July August September \
                      October November December";

impl Date {
    /// 1 January 2000.
    pub const FIRST: Date = Date(0);

    /// The last that has a number.
    pub const LAST: Date = Date(u32::MAX);

    pub const fn from_days(days: u32) -> Self {
        Date(days)
    }

    /// Days since 1 January 2000.
    pub const fn days(self) -> u32 {
        self.0
    }

    /// Month and day are counted from 1. None where the calendar has no such
    /// date, before the first one and behind the last.
    pub fn from_calendar(year: u32, month: u32, day: u32) -> Option<Self> {
        let years = year.checked_sub(FIRST_YEAR)?;
        let of_the_calendar =
            (1..=12).contains(&month) && (1..=days_of_month(year, month)).contains(&day);
        if !of_the_calendar {
            return None;
        }
        let before: u32 = (1..month).map(|month| days_of_month(year, month)).sum();
        let days = days_of_years(years) + u64::from(before + day - 1);
        u32::try_from(days).ok().map(Date)
    }

    /// Year, month and day of the month, the last two from 1.
    pub fn calendar(self) -> (u32, u32, u32) {
        let mut year = FIRST_YEAR + self.0 / CYCLE_DAYS * CYCLE_YEARS;
        let mut passed = self.0 % CYCLE_DAYS;
        while passed >= days_of_year(year) {
            passed -= days_of_year(year);
            year += 1;
        }
        let mut month = 1;
        while passed >= days_of_month(year, month) {
            passed -= days_of_month(year, month);
            month += 1;
        }
        (year, month, passed + 1)
    }

    /// `15 November 2026`.
    pub fn in_words(self) -> String {
        let (year, month, day) = self.calendar();
        let name = MONTHS.split(' ').nth(month as usize - 1);
        format!("{day} {} {year}", name.unwrap_or_default())
    }
}

/// Days of so many years from 2000 on. The first of every four is a leap year;
/// of those that begin a century, the first of every four again.
const fn days_of_years(years: u32) -> u64 {
    let years = years as u64;
    365 * years + years.div_ceil(4) - years.div_ceil(100) + years.div_ceil(400)
}

fn is_leap(year: u32) -> bool {
    year.is_multiple_of(if year.is_multiple_of(100) { 400 } else { 4 })
}

fn days_of_year(year: u32) -> u32 {
    365 + u32::from(is_leap(year))
}

fn days_of_month(year: u32, month: u32) -> u32 {
    match month {
        2 => 28 + u32::from(is_leap(year)),
        4 | 6 | 9 | 11 => 30,
        _ => 31,
    }
}

impl Display for Date {
    /// `2026-11-15`.
    fn fmt(&self, f: &mut Formatter<'_>) -> fmt::Result {
        let (year, month, day) = self.calendar();
        f.pad(&format!("{year}-{month:02}-{day:02}"))
    }
}

/// A text that is no date.
#[derive(Clone, Copy, Debug, PartialEq, Eq)]
pub struct NoDate;

impl Display for NoDate {
    fn fmt(&self, f: &mut Formatter<'_>) -> fmt::Result {
        let first = Date::FIRST;
        write!(
            f,
            "a date is year-month-day as in 2026-11-15, from {first} on"
        )
    }
}

impl Error for NoDate {}

impl FromStr for Date {
    type Err = NoDate;

    /// Takes each date in the one way that it is displayed.
    fn from_str(text: &str) -> Result<Self, NoDate> {
        let numbers: Vec<u32> = text.split('-').flat_map(str::parse).collect();
        let date = match numbers[..] {
            [year, month, day] => Date::from_calendar(year, month, day),
            _ => None,
        };
        date.filter(|date| date.to_string() == text).ok_or(NoDate)
    }
}
