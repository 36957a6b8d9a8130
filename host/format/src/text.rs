//! Numbers and lists as people read them.

use std::fmt::Display;

/// Decimals of money, counted in hundredths.
pub const MONEY: u32 = 2;

/// Decimals of a percentage, counted in millionths of 1.
pub const PERCENT: u32 = 4;

/// Decimals of a coefficient, counted in hundredths.
pub const COEFFICIENT: u32 = 2;

/// A number of units of the last of so many decimal places, `1,234,567.89`.
pub fn decimal(number: impl Into<i128>, places: u32) -> String {
    decimal_with('.', Some(','), number, places)
}

/// The same with signs of one's own before the decimals and, if any, between
/// thousands.
pub fn decimal_with(
    sign: char,
    thousands: Option<char>,
    number: impl Into<i128>,
    places: u32,
) -> String {
    let number = number.into();
    let unit = 10_u128.pow(places);
    let size = number.unsigned_abs();
    let minus = if number < 0 { "-" } else { "" };
    let whole = separated(&(size / unit).to_string(), thousands);
    if places == 0 {
        return format!("{minus}{whole}");
    }
    let width = places as usize;
    format!("{minus}{whole}{sign}{:0width$}", size % unit)
}

fn separated(digits: &str, thousands: Option<char>) -> String {
    let mut text = String::new();
    for (place, digit) in digits.chars().enumerate() {
        if place > 0 && (digits.len() - place).is_multiple_of(3) {
            text.extend(thousands);
        }
        text.push(digit);
    }
    text
}

/// A number of things.
pub fn count(number: usize, thing: &str) -> String {
    let plural = if number == 1 { "" } else { "s" };
    format!("{} {thing}{plural}", decimal(number as i128, 0))
}

/// Items with commas between them, the last two with a word.
pub fn listed(items: impl IntoIterator<Item = impl Display>, word: &str) -> String {
    let items: Vec<String> = items.into_iter().map(|item| item.to_string()).collect();
    match &items[..] {
        [before @ .., last] if !before.is_empty() => {
            format!("{} {word} {last}", before.join(", "))
        }
        _ => items.concat(),
    }
}

#[cfg(test)]
mod tests {
    use super::*;

    #[test]
    fn numbers_have_separated_thousands() {
        assert_eq!(decimal(0, MONEY), "0.00");
        assert_eq!(decimal(-5, MONEY), "-0.05");
        assert_eq!(decimal(123_456_789, MONEY), "1,234,567.89");
        assert_eq!(decimal(10_950, 0), "10,950");
        assert_eq!(decimal(i64::MIN, MONEY), "-92,233,720,368,547,758.08");
        assert_eq!(
            decimal_with(',', Some('.'), 123_456_789, MONEY),
            "1.234.567,89"
        );
        assert_eq!(decimal_with(',', None, 123_456_789, MONEY), "1234567,89");
    }

    #[test]
    fn things_are_counted() {
        assert_eq!(count(1, "trade"), "1 trade");
        assert_eq!(count(1_134, "trade"), "1,134 trades");
    }

    #[test]
    fn lists_end_in_a_word() {
        let none: [&str; 0] = [];
        assert_eq!(listed(none, "or"), "");
        assert_eq!(listed(["a"], "or"), "a");
        assert_eq!(listed(["a", "b"], "or"), "a or b");
        assert_eq!(listed(["a", "b", "c"], "and"), "a, b and c");
    }
}
