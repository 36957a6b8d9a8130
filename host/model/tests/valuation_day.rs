//! The day that a book is for: where it stands, who tests it, and when.

#[path = "samples/flat_curve.rs"]
mod flat_curve;
mod samples;

use flat_curve::flat_curve;
use samples::single_payment;
use seddolki_model::{
    append, assemble, bond_of, bootstrap, check, list, margin, preview, read, seal, statement,
    strike, Answer, Curve, Date, Ground, Layout, Quote, Record, BLOCK, LINE, RECORD,
};

/// The first, the last, and days that fill one byte to four.
const DAYS: [u32; 8] = [0, 1, 255, 9_815, 65_536, 1 << 24, 0x0102_0304, u32::MAX];

fn curve() -> Curve {
    flat_curve(1, 250_000, 250_000)
}

/// Lengthens the curve by a payment in three years.
fn quote() -> Quote {
    let bond = Record {
        first_payment_day: 1_095,
        period: 1,
        payments: 1,
        nominal: 100_000,
        ..Record::default()
    };
    Quote {
        curve: 1,
        bond: bond_of(&bond),
        cash: 70_000,
        components: [0; 3],
    }
}

/// A book of one curve and ten trades, for a day.
fn book(days: u32) -> Vec<u8> {
    assemble(
        7,
        Date::from_days(days),
        &[curve()],
        &[single_payment(); 10],
    )
}

/// Bytes of its page: a title, ten trades, a curve and a currency.
const PAGE_LENGTH: usize = (1 + 10 + 1 + 1) * LINE;

fn done(value: usize) -> Answer {
    Ok(value as u64).into()
}

fn another_day() -> Answer {
    Err(Ground::ValuationDay.alone()).into()
}

/// What a call answers that is lent a copy of these bytes; panics if it is
/// refused and writes.
fn on_copy(lent: &[u8], call: impl FnOnce(&mut [u8]) -> Answer) -> Answer {
    let mut copy = lent.to_vec();
    let answer = call(&mut copy);
    assert!(answer.number == 0 || copy == lent);
    answer
}

/// What the six calls that are given a day answer.
fn answers(book: &[u8], day: Date, asked: &Asked) -> [Answer; 6] {
    let used = book.len();
    let record = asked.record.to_bytes();
    let space = vec![7; asked.space];
    let page = vec![7; asked.page];
    [
        on_copy(&space, |space| margin(book, used, day, space)),
        on_copy(&space, |space| preview(book, used, day, &record, space)),
        on_copy(book, |book| append(book, used, day, &record)),
        on_copy(book, |book| strike(book, used, day, asked.position)),
        on_copy(book, |book| bootstrap(book, used, day, &asked.quote)),
        on_copy(&page, |page| statement(book, used, day, page)),
    ]
}

/// What the calls are asked.
struct Asked {
    record: Record,
    position: usize,
    quote: Quote,
    space: usize,
    page: usize,
}

/// What each call takes.
fn right() -> Asked {
    Asked {
        record: single_payment(),
        position: 9,
        quote: quote(),
        space: BLOCK,
        page: PAGE_LENGTH,
    }
}

/// What each call refuses.
fn wrong() -> Asked {
    Asked {
        record: Record::default(),
        position: 10,
        quote: Quote::default(),
        space: BLOCK - 1,
        page: PAGE_LENGTH - 1,
    }
}

#[test]
fn the_day_stands_in_bytes_12_to_15_and_may_be_any() {
    for days in DAYS {
        let mut bytes = book(0);
        bytes[12..16].copy_from_slice(&days.to_le_bytes());
        seal(&mut bytes[..BLOCK]);
        assert_eq!(bytes, book(days));
        assert_eq!(check(&bytes, bytes.len()), done(0));
        let used = bytes.len();
        let due = [0, 0, used, used - BLOCK, 0, PAGE_LENGTH].map(done);
        assert_eq!(answers(&bytes, Date::from_days(days), &right()), due);
    }
}

#[test]
fn header_bytes_behind_the_day_are_due_to_be_0() {
    for at in 12..BLOCK - 4 {
        let mut bytes = book(0);
        bytes[at] = 1;
        seal(&mut bytes[..BLOCK]);
        let due = if at < 16 { 0 } else { Ground::Header.number() };
        let answer = check(&bytes, bytes.len());
        assert_eq!((answer.number, answer.value), (due, 0), "byte {at}");
    }
}

#[test]
fn a_day_that_differs_in_any_bit_is_refused_before_what_is_asked() {
    for days in DAYS {
        for bit in 0..32 {
            let day = Date::from_days(days ^ 1 << bit);
            for asked in [right(), wrong()] {
                let answers = answers(&book(days), day, &asked);
                assert_eq!(answers, [another_day(); 6], "{days} on {day}");
            }
        }
    }
}

#[test]
fn what_is_asked_is_looked_at_on_the_day_of_the_book() {
    let day = Date::from_days(9_815);
    let grounds = answers(&book(9_815), day, &wrong()).map(|answer| answer.number);
    assert_eq!(grounds, [13, 8, 8, 14, 8, 13]);
}

#[test]
fn every_block_is_looked_at_before_the_day() {
    let day = Date::from_days(9_814);
    let whole = book(9_815);
    let last_block = whole.len() - BLOCK;
    for (at, ground) in [
        (16, Ground::Header),
        (BLOCK + 10, Ground::Curve),
        (BLOCK + 20 + 7, Ground::Node),
        (last_block + 4 + 56, Ground::TradeBlock),
        (last_block + 4, Ground::Form),
        (last_block + 4 + 55, Ground::Amounts),
    ] {
        let mut bytes = whole.clone();
        bytes[at] = 9;
        let number = at / BLOCK;
        seal(&mut bytes[number * BLOCK..][..BLOCK]);
        let due = Err(ground.in_block(number)).into();
        assert_eq!(answers(&bytes, day, &right()), [due; 6]);
        bytes[at] ^= 1;
        let due = Err(Ground::Check.in_block(number)).into();
        assert_eq!(answers(&bytes, day, &right()), [due; 6]);
    }
}

#[test]
fn edits_keep_the_day() {
    for days in DAYS {
        let (day, asked) = (Date::from_days(days), right());
        let mut bytes = book(days);
        let used = bytes.len();
        let kept = |bytes: &[u8]| assert_eq!(bytes[12..16], days.to_le_bytes());
        let lengthened = bootstrap(&mut bytes, used, day, &asked.quote);
        assert_eq!(lengthened, done(0));
        kept(&bytes);
        let shorter = strike(&mut bytes, used, day, 0);
        assert_eq!(shorter, done(used - BLOCK));
        kept(&bytes);
        let longer = append(&mut bytes, used - BLOCK, day, &asked.record.to_bytes());
        assert_eq!(longer, done(used));
        kept(&bytes);
    }
}

#[test]
fn check_read_and_list_take_the_day_that_is_there() {
    let first = list(&book(0));
    assert!(first.starts_with("account 7\n"));
    for days in DAYS {
        let bytes = book(days);
        let mut record = [0; RECORD];
        assert_eq!(read(&bytes, bytes.len(), 9, &mut record), done(0));
        assert_eq!(Record::decode(&record), single_payment());
        assert_eq!(list(&bytes), first);
    }
}
