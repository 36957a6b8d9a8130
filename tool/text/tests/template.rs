//! The files that a new user starts from.

use seddolki::{Book, Date};
use seddolki_doubles::doubles;
use seddolki_format::record::{INDEXED_COUPONS, NO_SECURITY, OUTRIGHT, POOL, SPECIFIED};
use seddolki_format::{assemble, Record};
use seddolki_text::trades_file::Trade;
use seddolki_text::{curve_file, template, trades_file};

fn trades() -> Vec<Trade> {
    let file = trades_file::read(template::TRADES.as_bytes()).unwrap();
    assert_eq!(file.faults, []);
    file.trades
}

#[test]
fn the_engine_takes_the_trades_on_the_curves() {
    let file = curve_file::read(template::CURVES.as_bytes()).unwrap();
    let trades = trades();
    let day = Date::FIRST;
    let mut book = Book::from_bytes(assemble(file.account, day, &file.curves, &[]));
    for (position, trade) in trades.iter().enumerate() {
        assert_eq!(
            book.append(day, &trade.record),
            Ok(position),
            "line {}",
            trade.line
        );
    }
    let report = book.margin(day).unwrap();
    assert_eq!(report.present_curves().count(), 2);
    assert!(report
        .present_curves()
        .all(|(_, curve)| curve.worst_loss > 0));
}

#[test]
fn no_trade_looks_keyed_twice() {
    let records: Vec<Record> = trades().iter().map(|trade| trade.record).collect();
    assert_eq!(doubles(&records), []);
}

#[test]
fn trades_of_each_kind_are_shown() {
    let records: Vec<Record> = trades().iter().map(|trade| trade.record).collect();
    let forms = records.iter().map(|record| (record.kind, record.phase));
    let mut forms: Vec<(u8, u8)> = forms.collect();
    forms.dedup();
    assert_eq!(
        forms,
        [
            (OUTRIGHT, 0),
            (POOL, 1),
            (POOL, 2),
            (POOL, 3),
            (SPECIFIED, 1),
            (SPECIFIED, 2)
        ]
    );
    for security in NO_SECURITY..=INDEXED_COUPONS {
        let mut records = records.iter();
        assert!(
            records.any(|record| record.security == security),
            "{security}"
        );
    }
    let written = trades_file::write(&records, seddolki_text::Separator::Comma);
    assert_eq!(written, template::TRADES);
}
