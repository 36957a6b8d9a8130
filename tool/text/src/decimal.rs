//! Decimal numbers as people write them, and whole numbers of small units.

use crate::fault::shown;
use seddolki_format::text::decimal_with;
pub use seddolki_format::text::{decimal as format, COEFFICIENT, MONEY, PERCENT};

/// Which sign stands before the decimals; the other one may separate
/// thousands.
#[derive(Clone, Copy, Debug, PartialEq, Eq)]
pub enum Decimals {
    /// As in `1,234.56`.
    Point,
    /// As in `1.234,56`.
    Comma,
    /// As it is written, where there is one reading alone.
    Either,
}

/// One way to write numbers: the sign before decimals, the one between
/// thousands, and what the first is called.
type Signs = (char, char, &'static str);

const POINT: Signs = ('.', ',', "point");
const COMMA: Signs = (',', '.', "comma");

impl Decimals {
    /// The signs to write with, and those of the other way.
    fn signs(self) -> (Signs, Signs) {
        match self {
            Decimals::Point | Decimals::Either => (POINT, COMMA),
            Decimals::Comma => (COMMA, POINT),
        }
    }
}

/// Why a text is not taken for a number.
#[derive(Clone, Debug, PartialEq, Eq)]
pub struct NotTaken {
    /// What is wrong.
    pub reason: String,
    /// How to write it instead, where the text tells that.
    pub advice: Option<String>,
}

/// Why a text has no reading.
enum NoReading {
    Form,
    Decimals,
    Size,
}

/// The number that a text stands for, in units of its last decimal place. A
/// text with two readings, one of them with separated thousands, is not
/// taken.
pub fn parse(text: &str, places: u32, decimals: Decimals) -> Result<i64, NotTaken> {
    let (own, other) = decimals.signs();
    let (_, thousands, sign) = own;
    let either = decimals == Decimals::Either;
    let doubtful = either || text.contains(thousands);
    let written = |number| grouped(number, places, decimals);
    let (reason, advice) = match (reading(text, places, own), reading(text, places, other)) {
        (Ok(one), Ok(two)) if doubtful && one != two => (
            format!("can be read as {} or {}", written(one), written(two)),
            Some("write it in one of these ways".into()),
        ),
        (Ok(number), _) => return Ok(number),
        (Err(_), Ok(number)) if either => return Ok(number),
        (Err(NoReading::Form), Ok(number)) => (
            format!("is not a number with a decimal {sign}"),
            Some(format!("write {}", written(number))),
        ),
        (Err(NoReading::Form), Err(why)) if either => (why.reason(places), None),
        (Err(why), _) => (why.reason(places), None),
    };
    let reason = format!("{} {reason}", shown(text));
    Err(NotTaken { reason, advice })
}

impl NoReading {
    fn reason(&self, places: u32) -> String {
        match self {
            NoReading::Form => "is not a number".into(),
            NoReading::Decimals if places == 0 => "is not a whole number".into(),
            NoReading::Decimals => format!("has more than {places} decimals"),
            NoReading::Size => "is too large".into(),
        }
    }
}

fn reading(text: &str, places: u32, (sign, thousands, _): Signs) -> Result<i64, NoReading> {
    let unsigned = text.strip_prefix(['-', '+']).unwrap_or(text);
    let (whole, decimals) = match unsigned.split_once(sign) {
        Some((_, "")) => return Err(NoReading::Form),
        Some(parts) => parts,
        None => (unsigned, ""),
    };
    let whole = without_separators(whole, thousands).ok_or(NoReading::Form)?;
    if !decimals.bytes().all(|byte| byte.is_ascii_digit()) {
        return Err(NoReading::Form);
    }
    if decimals.len() > places as usize {
        return Err(NoReading::Decimals);
    }
    let digits = format!("{whole}{decimals:0<width$}", width = places as usize);
    let number: i64 = digits.parse().map_err(|_| NoReading::Size)?;
    let sign = if text.starts_with('-') { -1 } else { 1 };
    Ok(sign * number)
}

/// Digits alone, or in groups of three behind the first, which does not
/// start with 0.
fn without_separators(whole: &str, separator: char) -> Option<String> {
    let groups: Vec<&str> = whole.split(separator).collect();
    let digits = |group: &&str| group.bytes().all(|byte| byte.is_ascii_digit());
    let first = groups[0];
    let alone = groups.len() == 1 && !first.is_empty();
    let grouped = (1..=3).contains(&first.len()) && !first.starts_with('0');
    let right = alone || grouped && groups[1..].iter().all(|group| group.len() == 3);
    (right && groups.iter().all(digits)).then(|| groups.concat())
}

/// A number of units of the last of so many decimal places as people read
/// it, with a plus where it is above 0.
pub fn format_signed(number: impl Into<i128>, places: u32) -> String {
    let number = number.into();
    let plus = if number > 0 { "+" } else { "" };
    plus.to_owned() + &format(number, places)
}

/// The same by its decimal sign, `1.234.567,89` for a comma.
pub fn grouped(number: impl Into<i128>, places: u32, decimals: Decimals) -> String {
    let ((sign, thousands, _), _) = decimals.signs();
    decimal_with(sign, Some(thousands), number, places)
}

/// The same as machines read it, `1234567.89` or `1234567,89`.
pub fn plain(number: impl Into<i128>, places: u32, decimals: Decimals) -> String {
    let ((sign, ..), _) = decimals.signs();
    decimal_with(sign, None, number, places)
}

#[cfg(test)]
mod tests {
    use super::Decimals::{Comma, Either, Point};
    use super::*;
    use seddolki_books::Draw;

    const ALL: [Decimals; 3] = [Point, Comma, Either];

    fn message(text: &str, places: u32, decimals: Decimals) -> String {
        let NotTaken { reason, advice } = parse(text, places, decimals).unwrap_err();
        reason + &advice.map_or(String::new(), |advice| format!(": {advice}"))
    }

    #[test]
    fn texts_are_numbers_of_the_last_place() {
        for decimals in [Point, Either] {
            assert_eq!(parse("1,234,567.8", MONEY, decimals), Ok(123_456_780));
            assert_eq!(parse("-0.05", MONEY, decimals), Ok(-5));
            assert_eq!(parse("13.25", PERCENT, decimals), Ok(132_500));
            assert_eq!(parse("1,234", MONEY, decimals), Ok(123_400));
            assert_eq!(parse("10,950", 0, decimals), Ok(10_950));
        }
        for decimals in [Comma, Either] {
            assert_eq!(parse("1.234.567,8", MONEY, decimals), Ok(123_456_780));
            assert_eq!(parse("-0,05", MONEY, decimals), Ok(-5));
            assert_eq!(parse("13,25", PERCENT, decimals), Ok(132_500));
            assert_eq!(parse("1.234", MONEY, decimals), Ok(123_400));
            assert_eq!(parse("10.950", 0, decimals), Ok(10_950));
        }
        for decimals in ALL {
            assert_eq!(parse("1000", MONEY, decimals), Ok(100_000));
            assert_eq!(parse("+365", 0, decimals), Ok(365));
            assert_eq!(parse("007", 0, decimals), Ok(7));
        }
    }

    #[test]
    fn other_texts_are_not() {
        for text in [
            "",
            "-",
            "x",
            "1.2.3",
            "1,2,3",
            "12,3456",
            "12.3456",
            ",123",
            ".123",
            "1,2345",
            "1e3",
            "--1",
            "1 000",
            "1.",
            "1,",
            "0,125",
            "0.125",
            "1,234.567,8",
            "1234,567",
            "1234.567",
            "١",
            "1_000",
            "1\u{a0}000",
            "-.5",
            "0x10",
            "inf",
        ] {
            for decimals in ALL {
                assert!(parse(text, MONEY, decimals).is_err(), "{text} {decimals:?}");
            }
        }
        for decimals in ALL {
            let large = "99999999999999999999";
            assert_eq!(message(large, 0, decimals), format!("{large} is too large"));
            assert_eq!(message("x", MONEY, decimals), "x is not a number");
        }
        for (text, decimals) in [
            ("0.001", Point),
            ("0.001", Either),
            ("0,001", Either),
            ("5.001", Point),
        ] {
            let due = format!("{text} has more than 2 decimals");
            assert_eq!(message(text, MONEY, decimals), due);
        }
        assert_eq!(message("1.5", 0, Point), "1.5 is not a whole number");
        assert_eq!(message("1\n5", 0, Point), "1\\n5 is not a number");
    }

    #[test]
    fn no_number_is_guessed_between_two_readings() {
        let in_point =
            "13,250 can be read as 13,250.0000 or 13.2500: write it in one of these ways";
        assert_eq!(message("13,250", PERCENT, Point), in_point);
        assert_eq!(message("13,250", PERCENT, Either), in_point);
        let in_comma =
            "13.250 can be read as 13.250,0000 or 13,2500: write it in one of these ways";
        assert_eq!(message("13.250", PERCENT, Comma), in_comma);
        assert_eq!(parse("13.250", PERCENT, Point), Ok(132_500));
        assert_eq!(parse("13,250", PERCENT, Comma), Ok(132_500));
        assert!(message("13.250", PERCENT, Either).contains("13.2500 or 13,250.0000"));
        assert!(parse("-1,000", PERCENT, Point).is_err());
        assert_eq!(parse("1,000,000", PERCENT, Point), Ok(10_000_000_000));
        assert_eq!(parse("1,000.5", PERCENT, Point), Ok(10_005_000));
    }

    #[test]
    fn the_other_decimal_sign_is_told() {
        assert_eq!(
            message("13,25", PERCENT, Point),
            "13,25 is not a number with a decimal point: write 13.2500"
        );
        assert_eq!(
            message("1234.5", MONEY, Comma),
            "1234.5 is not a number with a decimal comma: write 1.234,50"
        );
    }

    /// Every text of up to seven of these characters, read as a person would
    /// have to: by the decimal sign, by groups, or by both.
    #[test]
    fn a_taken_text_has_one_reading() {
        let mut taken = 0;
        for text in (1..=7).flat_map(|length| texts(length, &['1', '0', '.', ','])) {
            for places in [0, MONEY, PERCENT] {
                let readings = [POINT, COMMA].map(|signs| reading(&text, places, signs).ok());
                let numbers: Vec<i64> = readings.iter().flatten().copied().collect();
                let one = numbers
                    .first()
                    .is_some_and(|n| numbers.iter().all(|m| m == n));
                let either = parse(&text, places, Either);
                assert_eq!(either.is_ok(), one, "{text} {places}");
                for (decimals, [own, other]) in
                    [(Point, readings), (Comma, [readings[1], readings[0]])]
                {
                    let ((_, thousands, _), _) = decimals.signs();
                    let by_decimals = !text.contains(thousands);
                    let due = own.filter(|n| by_decimals || other.is_none_or(|m| m == *n));
                    assert_eq!(parse(&text, places, decimals).ok(), due, "{text} {places}");
                    taken += u32::from(due.is_some());
                }
            }
        }
        assert!(taken > 1_000, "{taken}");
    }

    fn texts(length: u32, characters: &[char]) -> Vec<String> {
        let count = characters.len();
        let nth = |number: usize| {
            let place = |i| characters[number / count.pow(i) % count];
            (0..length).map(place).collect()
        };
        (0..count.pow(length)).map(nth).collect()
    }

    #[test]
    fn numbers_have_separated_thousands() {
        assert_eq!(format(0, MONEY), "0.00");
        assert_eq!(format(-5, MONEY), "-0.05");
        assert_eq!(format(123_456_789, MONEY), "1,234,567.89");
        assert_eq!(format(132_500, PERCENT), "13.2500");
        assert_eq!(format(10_950, 0), "10,950");
        assert_eq!(format_signed(300, COEFFICIENT), "+3.00");
        assert_eq!(format_signed(-300, COEFFICIENT), "-3.00");
        assert_eq!(format(i64::MIN, MONEY), "-92,233,720,368,547,758.08");
        assert_eq!(grouped(123_456_789, MONEY, Comma), "1.234.567,89");
    }

    #[test]
    fn machines_read_them_without() {
        assert_eq!(plain(123_456_789, MONEY, Point), "1234567.89");
        assert_eq!(plain(123_456_789, MONEY, Comma), "1234567,89");
        assert_eq!(plain(-5, MONEY, Either), "-0.05");
        assert_eq!(plain(10_950, 0, Comma), "10950");
    }

    #[test]
    fn what_is_written_is_read_as_the_same_number() {
        let mut draw = Draw::new(1);
        for _ in 0..2_000 {
            let size = draw.edge(0..=i64::MAX as u64) as i64;
            let number = if draw.once_in(2) { size } else { -size };
            for (places, decimals) in [0, MONEY, PERCENT]
                .iter()
                .flat_map(|&p| ALL.map(|d| (p, d)))
            {
                let (few, many) = (
                    plain(number, places, decimals),
                    grouped(number, places, decimals),
                );
                assert_eq!(parse(&few, places, decimals), Ok(number), "{few}");
                assert_eq!(parse(&many, places, decimals), Ok(number), "{many}");
            }
        }
    }
}
