//! The account statements of the example books, line by line, and that of the
//! buyer's book full of its trade. The figures are worked out from document 01
//! apart from the engine.

use seddolki_format::text::decimal_with;
use seddolki_format::text::MONEY;
use seddolki_format::{FULL_BLOCK, LINE, MAX_BLOCKS};

const EMPTY: [&str; 3] = [
    "account 7                                                                       ",
    "1 0 TRY                         0.00                  0.00                  0.00",
    "TRY                             0.00                  0.00                  0.00",
];

const SELLER: [&str; 4] = [
    "account 7                                                                       ",
    "0 1 2 365                                                                1000.00",
    "1 0 TRY                      -100.00                200.00                  0.01",
    "TRY                           200.00               -100.00               -300.00",
];

const REPO: [&str; 5] = [
    "account 7                                                                       ",
    "0 3 1 1095                                                              10000.00",
    "1 0 TRY                     -2880.00               1120.00                  0.02",
    "2 0 TRY                       880.00               5130.00                  0.01",
    "TRY                          6250.00              -2000.00              -8250.00",
];

const DESK: [&str; 17] = [
    "account 1042                                                                    ",
    "0 1 1 1394                                                            5000000.00",
    "1 1 2 274                                                             2500000.00",
    "2 1 1 1698                                                            1000000.00",
    "3 2 1 8                                                                     0.00",
    "4 2 2 200                                                             2200000.00",
    "5 2 1 788                                                             1500000.00",
    "6 2 2 363                                                              800000.00",
    "7 3 1 1394                                                            4000000.00",
    "8 3 2 274                                                             1200000.00",
    "9 1 1 2152                                                             250000.00",
    "10 1 2 365                                                             100000.00",
    "1 342 TRY                  634407.16             637141.26                  0.28",
    "2 0 TRY                   -339828.96               9246.67                  0.07",
    "3 20 USD                    -1726.62              10527.80                  0.15",
    "TRY                        646387.93             294578.20            -351809.73",
    "USD                         10527.80              -1726.62             -12254.42",
];

const BUYER: [&str; 4] = [
    "account 7                                                                       ",
    "0 1 1 365                                                                1000.00",
    "1 2 TRY                       100.00                300.00                  0.01",
    "TRY                           300.00                100.00               -200.00",
];

/// The example books by name, and the lines of their pages.
pub const EXAMPLES: [(&str, &[&str]); 5] = [
    ("empty", &EMPTY),
    ("seller", &SELLER),
    ("repo", &REPO),
    ("desk", &DESK),
    ("buyer", &BUYER),
];

/// A page of these lines.
pub fn page(lines: &[&str]) -> String {
    lines.iter().map(|line| format!("{line}\n")).collect()
}

/// A line of a page: what it is of, and its amounts in hundredths.
pub fn line(of: String, amounts: &[i128]) -> String {
    let amount = |number: &i128| format!("{:>22}", decimal_with('.', None, *number, MONEY));
    let amounts: String = amounts.iter().map(amount).collect();
    let width = LINE - 1 - of.len();
    format!("{of}{amounts:>width$}\n")
}

/// The page of the buyer's book with as many of its trade as a book takes:
/// each figure is so many times that of one.
pub fn full_page() -> String {
    let trades = FULL_BLOCK * (MAX_BLOCKS - 2);
    let sums = |amounts: [i128; 3]| amounts.map(|amount| amount * trades as i128);
    let trade = |position| line(format!("{position} 1 1 365"), &[100_000]);
    [
        line("account 7".to_string(), &[]),
        (0..trades).map(trade).collect(),
        line("1 2 TRY".to_string(), &sums([10_000, 30_000, 1])),
        line("TRY".to_string(), &sums([30_000, 10_000, -20_000])),
    ]
    .concat()
}
