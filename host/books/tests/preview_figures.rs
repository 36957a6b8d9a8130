//! Previews worked out by hand: their figures, and the order of their grounds.

use seddolki_books::{assemble, undiscounted_book};
use seddolki_model::{
    margin, preview, sealed, Answer, Book, CurrencyFigures, Curve, CurveFigures, Date, Ground,
    Layout, Record, Refusal, Report, BLOCK, REPORT,
};

/// Pays 70,000 today and is paid 100,000 in a year.
fn purchase() -> Record {
    undiscounted_book().trades[0]
}

/// The day that the books are for.
const DAY: Date = Date::from_days(9_815);

/// So many purchases. Beside their curve there is one in USD, with one
/// scenario alone.
fn book_of(purchases: usize) -> Vec<u8> {
    let book = undiscounted_book();
    let lira = book.curves[0];
    let dollars = Curve {
        number: 2,
        id: 2,
        currency: 2,
        steps: [0; 3],
        ..lira
    };
    assemble(&Book {
        valuation_day: DAY,
        curves: vec![lira, dollars],
        trades: vec![purchase(); purchases],
        ..book
    })
}

/// Is paid 150,000 today and pays 300,000 in two years.
fn sale() -> Record {
    Record {
        side: 2,
        first_payment_day: 730,
        nominal: 300_000,
        price_or_rate: 500_000,
        ..purchase()
    }
}

/// 1,000,000,000 in USD for a day at 13.2%, agreed in the pool: it comes in
/// tomorrow, and 1,000,307,397 goes out the day after.
fn repo() -> Record {
    Record {
        kind: 2,
        side: 1,
        phase: 1,
        cash_curve: 2,
        value_day_1: 1,
        value_day_2: 2,
        term: 1,
        repo_cash: 1_000_000_000,
        price_or_rate: 132_000,
        ..Record::default()
    }
}

/// Base, worst loss, scenario and tolerance of a curve.
type Figures = (i64, i64, u32, u64);

/// The report of a book with these curves, one of each currency.
fn report_of(figures: [Figures; 2]) -> [u8; BLOCK] {
    let mut report = Report {
        kind: REPORT,
        account: 7,
        ..Report::default()
    };
    for (place, (base, worst_loss, scenario, tolerance)) in figures.into_iter().enumerate() {
        report.curves[place] = CurveFigures {
            base,
            worst_loss,
            scenario,
            currency: place as u32 + 1,
            tolerance,
        };
        report.currencies[place] = CurrencyFigures {
            initial: worst_loss,
            variation: base,
            total: base - worst_loss,
        };
    }
    sealed(&report)
}

const NO_FLOWS: Figures = (0, 0, 0, 0);

/// Previews a trade behind so many purchases, and compares the report.
fn shows(purchases: usize, record: Record, figures: [Figures; 2]) {
    let mut lent = book_of(purchases);
    let used = lent.len();
    lent.extend([7; BLOCK]);
    let mut space = [0xaa; BLOCK + 3];
    let answer = preview(&lent, used, DAY, &record.to_bytes(), &mut space);
    assert_eq!(answer, done());
    assert_eq!(space[..BLOCK], report_of(figures));
    assert_eq!(space[BLOCK..], [0xaa; 3]);
}

fn done() -> Answer {
    Ok(0).into()
}

#[test]
fn a_trade_before_any_other() {
    // -70,000 + 100,000, and -70,000 + 50,000 where the rate is 100%
    shows(0, purchase(), [(30_000, 50_000, 2, 1), NO_FLOWS]);
    // 150,000 - 300,000; where the rate is 100% it gains 225,000
    shows(0, sale(), [(-150_000, 0, 0, 1), NO_FLOWS]);
}

#[test]
fn a_trade_behind_another() {
    shows(1, purchase(), [(60_000, 100_000, 2, 2), NO_FLOWS]);
    shows(1, sale(), [(-120_000, 0, 0, 2), NO_FLOWS]);
    let bought = Record { side: 1, ..sale() };
    shows(1, bought, [(180_000, 275_000, 2, 2), NO_FLOWS]);
}

#[test]
fn a_trade_in_a_new_block() {
    let ten = (300_000, 500_000, 2, 10);
    shows(9, purchase(), [ten, NO_FLOWS]);
    // 18 * 30,000 - 150,000, and 18 * 50,000 - 225,000
    let nineteen = (390_000, 675_000, 2, 19);
    shows(18, sale(), [nineteen, NO_FLOWS]);
}

#[test]
fn a_trade_on_another_curve_leaves_the_figures_of_the_first() {
    let first = (30_000, 50_000, 2, 1);
    shows(1, repo(), [first, (-307_397, 0, 0, 2)]);
}

#[test]
fn a_report_without_the_trade_is_another() {
    let book = book_of(1);
    let mut without = [0; BLOCK];
    assert_eq!(margin(&book, book.len(), DAY, &mut without), done());
    assert_eq!(without, report_of([(30_000, 50_000, 2, 1), NO_FLOWS]));
    for record in [purchase(), sale(), repo()] {
        let mut with = [0; BLOCK];
        let answer = preview(&book, book.len(), DAY, &record.to_bytes(), &mut with);
        assert_eq!(answer, done());
        assert_ne!(with, without, "{record:?}");
    }
}

/// What a preview is given.
struct Asked {
    lent: Vec<u8>,
    used: usize,
    day: Date,
    record: Record,
    space: usize,
}

/// On a book whose last block is full.
fn all_wrong() -> Asked {
    let mut lent = book_of(9);
    lent[BLOCK + 5] ^= 1;
    let record = Record {
        kind: 9,
        security_curve: 2,
        zero: 1,
        first_payment_day: 0,
        nominal: 1_000_000_000_000,
        price_or_rate: 1_000_001,
        ..purchase()
    };
    Asked {
        lent,
        used: 5 * BLOCK,
        day: Date::from_days(DAY.days() + 1),
        record,
        space: BLOCK - 1,
    }
}

/// A refusal, and what takes its ground away.
type Repair = (Refusal, fn(&mut Asked));

#[test]
fn grounds_are_tried_in_the_order_of_an_append_and_then_a_margin() {
    let repairs: [Repair; 10] = [
        (Ground::Length.alone(), |a| a.used = 4 * BLOCK),
        (Ground::Check.in_block(1), |a| a.lent[BLOCK + 5] ^= 1),
        (Ground::ValuationDay.alone(), |a| a.day = DAY),
        (Ground::Form.in_block(4), |a| a.record.kind = 1),
        (Ground::Days.in_block(4), |a| {
            a.record.first_payment_day = 365
        }),
        (Ground::Amounts.in_block(4), |a| a.record.zero = 0),
        (Ground::Currency.in_block(4), |a| {
            a.record.security_curve = 1
        }),
        (Ground::FlowLimit.in_block(4), |a| {
            a.record.price_or_rate = 1_000_000
        }),
        (Ground::BookSpace.alone(), |a| a.lent.resize(5 * BLOCK, 7)),
        (Ground::ReportSpace.alone(), |a| a.space = BLOCK),
    ];
    let mut asked = all_wrong();
    let answer = |a: &Asked| {
        let mut space = vec![0xaa; a.space];
        let answer = preview(&a.lent, a.used, a.day, &a.record.to_bytes(), &mut space);
        (answer, space)
    };
    for (refusal, repair) in repairs {
        let nothing_written = vec![0xaa; asked.space];
        assert_eq!(answer(&asked), (Err(refusal).into(), nothing_written));
        repair(&mut asked);
    }
    // the trade pays 10^12 today for 10^12 in a year, half of it at 100%
    let nominal = 1_000_000_000_000;
    let figures = (270_000, 450_000 + nominal / 2, 2, 9 + 2);
    let report = report_of([figures, NO_FLOWS]);
    assert_eq!(answer(&asked), (done(), report.to_vec()));
}
