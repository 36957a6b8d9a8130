//! The account statement: pages written out by hand, and the order of its
//! grounds.

#[path = "samples/flat_curve.rs"]
mod flat_curve;
mod samples;

use flat_curve::flat_curve;
use samples::single_payment;
use seddolki_model::{
    assemble, statement, Answer, Curve, Date, Ground, Record, Refusal, BLOCK, COUPONS,
    INDEXED_COUPONS, LINE, OUTRIGHT, PAGE, POOL, SPECIFIED,
};

/// The day that the books are for.
const DAY: Date = Date::from_days(9_815);

const TRY: u8 = 1;
const EUR: u8 = 3;

/// Nodes at a rate, which in scenario 2 is higher by 25% for each 100 of the
/// range, and in scenario 0 as much lower.
fn curve(id: u8, currency: u8, rate: u32, range: u16) -> Curve {
    Curve {
        currency,
        ranges: [range, 0, 0],
        ..flat_curve(id, rate, 250_000)
    }
}

/// The curve of document 01's example.
fn example_curve() -> Curve {
    curve(1, TRY, 250_000, 300)
}

/// Compares the page of a book with these lines, in exactly as many bytes and
/// in more, of which those behind the page keep.
fn shows(book: &[u8], lines: &[&str]) {
    let due = lines.join("\n") + "\n";
    assert_eq!(due.len(), LINE * lines.len());
    for behind in [0, 1, 9, PAGE] {
        let mut space = vec![0xaa; due.len() + behind];
        let answer = statement(book, book.len(), DAY, &mut space);
        assert_eq!(answer, Ok(due.len() as u64).into());
        let (page, kept) = space.split_at(due.len());
        assert_eq!(std::str::from_utf8(page), Ok(&due[..]));
        assert_eq!(kept, vec![0xaa; behind]);
    }
}

#[test]
fn the_buyer_of_document_01() {
    let book = assemble(7, DAY, &[example_curve()], &[single_payment()]);
    let lines = [
        "account 7                                                                       ",
        "0 1 1 365                                                                1000.00",
        "1 2 TRY                       100.00                300.00                  0.01",
        "TRY                           300.00                100.00               -200.00",
    ];
    shows(&book, &lines);
}

#[test]
fn the_seller_of_document_01() {
    let sale = Record {
        side: 2,
        ..single_payment()
    };
    let book = assemble(7, DAY, &[example_curve()], &[sale]);
    let lines = [
        "account 7                                                                       ",
        "0 1 2 365                                                                1000.00",
        "1 0 TRY                      -100.00                200.00                  0.01",
        "TRY                           200.00               -100.00               -300.00",
    ];
    shows(&book, &lines);
}

/// Bought on the second curve: 100,500 out, then 10,000 twice and 110,000 in,
/// on days 100, 191 and 282.
fn coupon_bond() -> Record {
    Record {
        kind: OUTRIGHT,
        side: 1,
        security_curve: 2,
        cash_curve: 2,
        security: COUPONS,
        value_day_1: 2,
        first_payment_day: 100,
        period: 91,
        payments: 3,
        coupon: 100_000,
        nominal: 100_000,
        price_or_rate: 1_000_000,
        accrued: 5_000,
        ..Record::default()
    }
}

/// Lent in the pool, the security not named yet: 36,500,000 out, and seven
/// days later back with 70,000 interest less 10,500 withheld.
fn pool_repo() -> Record {
    Record {
        kind: POOL,
        side: 2,
        phase: 1,
        cash_curve: 2,
        value_day_1: 1,
        value_day_2: 8,
        term: 7,
        repo_cash: 36_500_000,
        price_or_rate: 100_000,
        ..Record::default()
    }
}

/// On the first curve: 50,000 out today and 50,005 in on day 365; for side 2
/// the opposite.
fn specified_repo(side: u8) -> Record {
    Record {
        kind: SPECIFIED,
        side,
        phase: 2,
        security_curve: 1,
        cash_curve: 1,
        security: 1,
        first_payment_day: 365,
        term: 30,
        nominal: 50_005,
        repo_cash: 50_000,
        ..Record::default()
    }
}

/// One trade of each kind. Both curves are at rate 0, where an amount is worth
/// itself; the first, in EUR, is at 100% in scenario 2, the second in none.
fn book_of_each_kind(side: u8) -> Vec<u8> {
    let curves = [curve(1, EUR, 0, 400), curve(2, TRY, 0, 0)];
    let trades = [coupon_bond(), pool_repo(), specified_repo(side)];
    assemble(u32::MAX, DAY, &curves, &trades)
}

/// In TRY 29,500 of the bond and 59,500 of the repo, and five flows that do
/// not fall today. In EUR 5; at 100% a day of a year halves 50,005 to 25,003,
/// half a kuruş up, which leaves -24,997.
#[test]
fn a_trade_of_each_kind_in_two_currencies() {
    let lines = [
        "account 4294967295                                                              ",
        "0 1 1 282                                                                1000.00",
        "1 2 2 8                                                                     0.00",
        "2 3 1 365                                                                 500.05",
        "1 2 EUR                         0.05                250.02                  0.01",
        "2 0 TRY                       890.00                  0.00                  0.06",
        "TRY                             0.00                890.00                890.00",
        "EUR                           250.02                  0.05               -249.97",
    ];
    shows(&book_of_each_kind(1), &lines);
}

/// In EUR -5, and 24,997 at 100%, which is no loss.
#[test]
fn an_amount_below_zero_by_less_than_one() {
    let lines = [
        "account 4294967295                                                              ",
        "0 1 1 282                                                                1000.00",
        "1 2 2 8                                                                     0.00",
        "2 3 2 365                                                                 500.05",
        "1 0 EUR                        -0.05                  0.00                  0.01",
        "2 0 TRY                       890.00                  0.00                  0.06",
        "TRY                             0.00                890.00                890.00",
        "EUR                             0.00                 -0.05                 -0.05",
    ];
    shows(&book_of_each_kind(2), &lines);
}

#[test]
fn a_book_without_trades() {
    let book = assemble(0, DAY, &[curve(1, 2, 1_000_000, 400)], &[]);
    let lines = [
        "account 0                                                                       ",
        "1 0 USD                         0.00                  0.00                  0.00",
        "USD                             0.00                  0.00                  0.00",
    ];
    shows(&book, &lines);
}

#[test]
fn curves_of_every_currency_and_their_sums() {
    let curves = [(1, 3), (2, 2), (3, 3), (4, 1), (5, 2)];
    let curves = curves.map(|(id, currency)| curve(id, currency, 0, 400));
    let on = |id: u8, side: u8| Record {
        side,
        security_curve: id,
        cash_curve: id,
        ..single_payment()
    };
    // 30,000 and a loss of 50,000, or for the seller their opposites
    let book = assemble(12, DAY, &curves, &[on(1, 1), on(3, 1), on(5, 2)]);
    let lines = [
        "account 12                                                                      ",
        "0 1 1 365                                                                1000.00",
        "1 1 1 365                                                                1000.00",
        "2 1 2 365                                                                1000.00",
        "1 2 EUR                       300.00                500.00                  0.01",
        "2 0 USD                         0.00                  0.00                  0.00",
        "3 2 EUR                       300.00                500.00                  0.01",
        "4 0 TRY                         0.00                  0.00                  0.00",
        "5 0 USD                      -300.00                  0.00                  0.01",
        "TRY                             0.00                  0.00                  0.00",
        "USD                             0.00               -300.00               -300.00",
        "EUR                          1000.00                600.00               -400.00",
    ];
    shows(&book, &lines);
}

/// The lines of a book's trades.
fn trade_lines(trades: &[Record]) -> Vec<String> {
    let book = assemble(7, DAY, &[example_curve()], trades);
    let mut space = vec![0; PAGE];
    let answer = statement(&book, book.len(), DAY, &mut space);
    assert_eq!(answer, Ok((LINE * (trades.len() + 3)) as u64).into());
    let lines = space.chunks(LINE).skip(1).take(trades.len());
    let text = |line: &[u8]| String::from_utf8(line.to_vec()).expect("a line is ASCII");
    lines.map(text).collect()
}

#[test]
fn the_day_is_that_of_the_last_payment_whether_or_not_it_is_a_flow() {
    let repo = Record {
        kind: POOL,
        phase: 2,
        security_curve: 1,
        cash_curve: 1,
        value_day_1: 5,
        value_day_2: 105,
        first_payment_day: 50,
        term: 100,
        repo_cash: 1,
        price_or_rate: 0,
        accrued: 0,
        ..coupon_bond()
    };
    let settled = Record {
        phase: 3,
        side: 2,
        value_day_1: 0,
        value_day_2: 0,
        ..repo
    };
    let once = Record {
        payments: 1,
        period: 366,
        ..repo
    };
    let last_of_all = Record {
        security: INDEXED_COUPONS,
        period: 90,
        payments: 120,
        first_payment_day: 240,
        coupon: 0,
        nominal: 5,
        settlement_index: 1,
        issue_index: 1,
        ..settled
    };
    let lines = [
        "0 2 1 232                                                                1000.00\n",
        "1 2 2 232                                                                1000.00\n",
        "2 2 1 50                                                                 1000.00\n",
        "3 2 2 10950                                                                 0.05\n",
    ];
    assert_eq!(trade_lines(&[repo, settled, once, last_of_all]), lines);
}

#[test]
fn the_longest_line_of_a_trade() {
    let trade = Record {
        side: 2,
        first_payment_day: 10_950,
        nominal: 1_000_000_000_000,
        ..single_payment()
    };
    let lines = trade_lines(&vec![trade; 1_134]);
    assert_eq!(
        lines[1_133],
        "1133 1 2 10950                                                    10000000000.00\n"
    );
    for (position, line) in lines.iter().enumerate() {
        assert_eq!(line.split_once(' ').unwrap().0, position.to_string());
    }
}

/// What a statement is given.
struct Asked {
    lent: Vec<u8>,
    used: usize,
    day: Date,
    space: usize,
}

/// A refusal, and what takes its ground away.
type Repair = (Refusal, fn(&mut Asked));

#[test]
fn the_book_is_looked_at_before_the_day_and_the_page_last() {
    let mut lent = book_of_each_kind(1);
    let whole = lent.len();
    lent[whole - 1] ^= 1;
    lent.resize(whole + 9, 7);
    let repairs: [Repair; 5] = [
        (Ground::Length.alone(), |a| a.used = 4 * BLOCK),
        (Ground::Check.in_block(3), |a| a.lent[4 * BLOCK - 1] ^= 1),
        (Ground::ValuationDay.alone(), |a| a.day = DAY),
        (Ground::ReportSpace.alone(), |a| a.space = 8 * LINE - 1),
        (Ground::ReportSpace.alone(), |a| a.space = 8 * LINE),
    ];
    let mut asked = Asked {
        lent,
        used: whole + BLOCK,
        day: Date::from_days(DAY.days() + 1),
        space: 0,
    };
    let answer = |a: &Asked| -> (Answer, Vec<u8>) {
        let mut space = vec![0xaa; a.space];
        (statement(&a.lent, a.used, a.day, &mut space), space)
    };
    for (refusal, repair) in repairs {
        let nothing_written = vec![0xaa; asked.space];
        assert_eq!(answer(&asked), (Err(refusal).into(), nothing_written));
        repair(&mut asked);
    }
    assert_eq!(answer(&asked).0, Ok(8 * LINE as u64).into());
}
