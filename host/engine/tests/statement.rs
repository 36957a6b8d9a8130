//! The account statement of a book, and in lent bytes.

mod pages;

use pages::{full_page, line, page, EXAMPLES};
use seddolki::{lent, Answer, Book, Date, Ground, Record, Refusal};
use seddolki_books::{assemble, buyer, draw_book, most_trades, undiscounted_book, Draw};
use seddolki_format::{
    currency_name, BLOCK, COUPONS, FIRST_SIDE, MAX_AMOUNT, MAX_COUPON, PAGE, PAYMENTS, SECOND_SIDE,
    SPECIFIED,
};

const ROOT: &str = concat!(env!("CARGO_MANIFEST_DIR"), "/../..");

#[test]
fn the_example_books_have_their_pages() {
    for (name, lines) in EXAMPLES {
        let bytes = std::fs::read(format!("{ROOT}/examples/{name}.book")).unwrap();
        let book = Book::from_bytes(bytes);
        let day = book.valuation_day().unwrap();
        assert_eq!(book.statement(day).unwrap(), page(lines), "{name}");
    }
}

#[test]
fn the_page_in_the_headers_comment_is_that_of_the_buyer() {
    let header = std::fs::read_to_string(format!("{ROOT}/include/seddolki.h")).unwrap();
    let page = Book::from_bytes(buyer()).statement(Date::FIRST).unwrap();
    let commented = |line: &str| format!(" *     {}\n", line.trim_end());
    let comment: String = page.lines().map(commented).collect();
    assert!(header.contains(&comment), "{comment}");
}

#[test]
fn a_full_book_with_one_curve_has_the_longest_page() {
    let mut book = Book::from_bytes(buyer());
    let trade = book.read(0).unwrap();
    while book.append(Date::FIRST, &trade).is_ok() {}
    let page = book.statement(Date::FIRST).unwrap();
    assert_eq!(page, full_page());
    assert_eq!(page.len(), PAGE);
}

/// The page written from what other calls give.
fn written(book: &Book) -> Result<String, Refusal> {
    let report = book.margin(book.valuation_day()?)?;
    let mut page = line(format!("account {}", report.account), &[]);
    for (position, trade) in book.records()?.enumerate() {
        let day = if trade.has_security() {
            trade.last_payment_day()
        } else {
            trade.value_day_2.into()
        };
        let of = format!("{position} {} {} {day}", trade.kind, trade.side);
        page += &line(of, &[trade.nominal.into()]);
    }
    for (id, figures) in report.present_curves() {
        let currency = currency_name(figures.currency);
        let of = format!("{id} {} {currency}", figures.scenario);
        let [base, loss] = [figures.base, figures.worst_loss].map(i128::from);
        page += &line(of, &[base, loss, figures.tolerance.into()]);
    }
    for (name, figures) in report.present_currencies() {
        let amounts = [figures.initial, figures.variation, figures.total];
        page += &line(name.to_string(), &amounts.map(i128::from));
    }
    Ok(page)
}

#[test]
fn a_page_has_the_trades_and_the_figures_of_the_report() {
    for seed in 0..60 {
        let drawn = draw_book(&mut Draw::new(seed), 100);
        let book = Book::from_bytes(assemble(&drawn));
        let page = book.statement(drawn.valuation_day).unwrap();
        assert_eq!(page, written(&book).unwrap(), "seed {seed}");
        assert_eq!(book.as_bytes(), assemble(&drawn), "seed {seed}");
    }
}

/// A repo in a bond that pays the most each day of its term; its last payment,
/// which is larger, falls behind.
fn largest_repo(side: u8) -> Record {
    let payments = *PAYMENTS.end();
    Record {
        kind: SPECIFIED,
        side,
        phase: 1,
        security: COUPONS,
        security_curve: 1,
        cash_curve: 1,
        value_day_2: payments - 1,
        first_payment_day: 1,
        period: 1,
        payments,
        term: payments - 1,
        coupon: MAX_COUPON,
        nominal: MAX_AMOUNT,
        repo_cash: MAX_AMOUNT,
        ..Record::default()
    }
}

#[test]
fn the_largest_sums_stand_in_their_columns() {
    let mut parts = undiscounted_book();
    parts.account = u32::MAX;
    let trades = most_trades(&parts.curves);
    for (side, base) in [
        (FIRST_SIDE, "-1349460000000000.00"),
        (SECOND_SIDE, " 1349460000000000.00"),
    ] {
        parts.trades = vec![largest_repo(side); trades];
        let book = Book::from_bytes(assemble(&parts));
        let page = book.statement(parts.valuation_day).unwrap();
        assert_eq!(page, written(&book).unwrap());
        let curve = page.lines().nth(1 + trades).unwrap();
        assert_eq!(&curve[..36], format!("{:<14}{base:>22}", &curve[..7]));
    }
}

/// What is lent for a page in the tests below.
const PAINT: u8 = 0xa5;

#[test]
fn a_page_fits_in_as_many_bytes_as_it_has_and_not_in_fewer() {
    for seed in 0..20 {
        let drawn = draw_book(&mut Draw::new(seed), 40);
        let (book, day) = (assemble(&drawn), drawn.valuation_day);
        let page = Book::from_bytes(book.clone()).statement(day).unwrap();
        let length = page.len();
        for behind in [0, 1, 512] {
            let mut space = vec![PAINT; length + behind];
            let answer = lent::statement(&book, book.len(), day, &mut space);
            assert_eq!(answer, Answer::from(Ok(length as u64)));
            assert_eq!(space, [page.as_bytes(), &vec![PAINT; behind]].concat());
        }
        for shorter in [length - 1, length / 2, 1, 0] {
            let mut space = vec![PAINT; shorter];
            let answer = lent::statement(&book, book.len(), day, &mut space);
            assert_eq!(answer, Answer::from(Err(Ground::ReportSpace.alone())));
            assert_eq!(space, vec![PAINT; shorter]);
        }
    }
}

#[test]
fn a_short_space_is_looked_at_after_the_blocks_and_the_day() {
    let book = buyer();
    let statement = |bytes: &[u8], day| lent::statement(bytes, bytes.len(), day, &mut []);
    let mut wrong = book.clone();
    wrong[BLOCK] ^= 1;
    let other = Date::from_days(1);
    for (bytes, day, refusal) in [
        (&wrong, other, Ground::Check.in_block(1)),
        (&wrong, Date::FIRST, Ground::Check.in_block(1)),
        (&book, other, Ground::ValuationDay.alone()),
        (&book, Date::FIRST, Ground::ReportSpace.alone()),
    ] {
        assert_eq!(statement(bytes, day), Answer::from(Err(refusal)));
    }
}
