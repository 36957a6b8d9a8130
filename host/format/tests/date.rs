//! Dates beside a walk through the calendar, day by day, and at its edges.

use seddolki_format::date::NoDate;
use seddolki_format::Date;

/// The last day of each month of a year that is no leap year.
const MONTH_ENDS: [u32; 12] = [31, 28, 31, 30, 31, 30, 31, 31, 30, 31, 30, 31];

/// Every date of the years 2000 to 2099, each fourth a leap year.
fn century() -> impl Iterator<Item = (u32, u32, u32)> {
    (2000..2100).flat_map(|year| {
        (1..=12).flat_map(move |month| {
            let leap_day = u32::from(year % 4 == 0 && month == 2);
            let end = MONTH_ENDS[month as usize - 1] + leap_day;
            (1..=end).map(move |day| (year, month, day))
        })
    })
}

#[test]
fn days_of_a_century_follow_each_other() {
    let mut days = 0;
    for (year, month, day) in century() {
        let date = Date::from_days(days);
        assert_eq!(date.calendar(), (year, month, day));
        assert_eq!(Date::from_calendar(year, month, day), Some(date));
        let text = format!("{year}-{month:02}-{day:02}");
        assert_eq!(date.to_string(), text);
        assert_eq!(text.parse(), Ok(date));
        assert!(date < Date::from_days(days + 1));
        days += 1;
    }
    assert_eq!(days, 36_525);
    assert_eq!(Date::from_days(days).to_string(), "2100-01-01");
}

#[test]
fn no_other_day_of_a_century_is_a_date() {
    let mut dates = century().peekable();
    for year in 2000..2100 {
        for month in 0..=13 {
            for day in 0..=32 {
                let is_date = dates.next_if_eq(&(year, month, day)).is_some();
                let date = Date::from_calendar(year, month, day);
                assert_eq!(date.is_some(), is_date, "{year} {month} {day}");
            }
        }
    }
    assert_eq!(dates.next(), None);
}

#[test]
fn known_days() {
    for (days, text, words) in [
        (0, "2000-01-01", "1 January 2000"),
        (59, "2000-02-29", "29 February 2000"),
        (60, "2000-03-01", "1 March 2000"),
        (365, "2000-12-31", "31 December 2000"),
        (366, "2001-01-01", "1 January 2001"),
        (9_815, "2026-11-15", "15 November 2026"),
        (9_816, "2026-11-16", "16 November 2026"),
        (146_097, "2400-01-01", "1 January 2400"),
        (u32::MAX, "11761221-01-19", "19 January 11761221"),
    ] {
        let date = Date::from_days(days);
        assert_eq!(date.days(), days);
        assert_eq!(date.to_string(), text);
        assert_eq!(date.in_words(), words);
        assert_eq!(text.parse(), Ok(date));
    }
    assert_eq!((Date::FIRST.days(), Date::LAST.days()), (0, u32::MAX));
}

#[test]
fn every_month_has_its_name() {
    let names = (1..=12).map(|month| {
        let date = Date::from_calendar(2026, month, 9).unwrap();
        let words = date.in_words();
        let name = words.strip_prefix("9 ").unwrap();
        name.strip_suffix(" 2026").unwrap().to_string()
    });
    let due = "January February March April May June \
               July August September October November December";
    assert_eq!(names.collect::<Vec<_>>().join(" "), due);
}

#[test]
fn leap_years_have_a_29th_of_february_and_366_days() {
    for (year, leap) in [
        (2000, true),
        (2001, false),
        (2004, true),
        (2096, true),
        (2099, false),
        (2100, false),
        (2104, true),
        (2200, false),
        (2300, false),
        (2400, true),
        (2800, true),
        (1_000_000, true),
        (1_000_100, false),
    ] {
        let day = |month, day| Date::from_calendar(year, month, day);
        assert_eq!(day(2, 29).is_some(), leap, "{year}");
        assert_eq!(day(2, 30), None);
        let (first, march) = (day(1, 1).unwrap(), day(3, 1).unwrap());
        assert_eq!(march.days() - first.days(), 59 + u32::from(leap));
        let next = Date::from_calendar(year + 1, 1, 1).unwrap();
        assert_eq!(next.days() - first.days(), 365 + u32::from(leap));
        let last = Date::from_days(next.days() - 1);
        assert_eq!(Some(last), day(12, 31));
        assert_eq!((last.calendar().0, first.calendar().0), (year, year));
    }
}

#[test]
fn every_400_years_repeat_the_first() {
    let days_of_cycle = 146_097;
    for days in (0..days_of_cycle).step_by(17) {
        let first = Date::from_days(days);
        for cycle in [1, 2, 100, 29_397] {
            let later = Date::from_days(days + cycle * days_of_cycle);
            assert_eq!(later.calendar().0, first.calendar().0 + 400 * cycle);
            let in_year = |date: Date| (date.calendar().1, date.calendar().2);
            assert_eq!(in_year(later), in_year(first));
            assert_eq!(later.to_string().parse(), Ok(later));
        }
    }
}

#[test]
fn other_texts_are_no_dates() {
    for text in [
        "2026-02-29",
        "2100-02-29",
        "2026-04-31",
        "2026-13-01",
        "2026-00-10",
        "2026-10-00",
        "2026-10-32",
        "1999-12-31",
        "0000-01-01",
        "11761221-01-20",
        "11761221-02-01",
        "11761222-01-01",
        "4294967295-12-31",
        "4294967296-01-01",
        "99999999999999999999-01-01",
        "",
        "-",
        "--",
        " 2026-11-15",
        "2026-11-15 ",
        "2026- 11-15",
        "2026-11-15\n",
        "+2026-11-15",
        "-2026-11-15",
        "2026-+11-15",
        "2026-11-+5",
        "2026--11-15",
        "2026-1-15",
        "2026-11-5",
        "2026-011-15",
        "2026-11-015",
        "02026-11-15",
        "26-11-15",
        "2026-11",
        "2026-11-15-",
        "2026-11-15-01",
        "2026-x-11-15",
        "2026/11/15",
        "20261115",
        "15-11-2026",
        "15 November 2026",
        "2026-11-1\u{665}",
        "2026\u{2011}11\u{2011}15",
    ] {
        assert_eq!(text.parse::<Date>(), Err(NoDate), "{text:?}");
    }
    assert_eq!(
        NoDate.to_string(),
        "a date is year-month-day as in 2026-11-15, from 2000-01-01 on"
    );
}

#[test]
fn dates_stand_in_columns() {
    let date = Date::from_days(9_815);
    assert_eq!(
        format!("{date:>12}|{date:<12}|"),
        "  2026-11-15|2026-11-15  |"
    );
}
