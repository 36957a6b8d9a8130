//! The named columns of a trade.

use crate::column::{Column, Unit};
use crate::decimal::PERCENT;
use crate::quantity::Quantity;
use crate::trade_words::{kinds, securities, sides};
use seddolki_format::limits::{
    CLEAN_PRICES, CURVES, INDICES, MAX_ACCRUED, MAX_COUPON, MAX_RATE, PAYMENTS, PERIODS, TERMS,
};
use seddolki_format::record::{OUTRIGHT, POOL, SPECIFIED};
use seddolki_format::Record;

/// A row for each column: its name, the record's field, how it is written, which
/// trades use it, and what it means.
macro_rules! columns {
    ($($name:ident $field:ident ($unit:expr) ($used:expr) $meaning:literal)*) => {
        [$(Column {
            name: stringify!($name),
            meaning: $meaning,
            unit: $unit,
            field: stringify!($field),
            used: $used,
            get: |record| record.$field.into(),
            set: |record, value| {
                record.$field = value.try_into().ok()?;
                Some(())
            },
        }),*]
    };
}

const fn whole(low: u64, high: u64) -> Unit {
    Unit::Number(Quantity::new(0, low as i64, high as i64))
}

const fn percent(low: u64, high: u64) -> Unit {
    Unit::Number(Quantity::new(PERCENT, low as i64, high as i64))
}

const AMOUNT: Unit = Unit::Number(Quantity::AMOUNT);
const VALUE_DAY: Unit = Unit::Number(Quantity::day(0));
const PAYMENT_DAY: Unit = Unit::Number(Quantity::day(1));
const CURVE: Unit = whole(*CURVES.start() as u64, *CURVES.end() as u64);
const TERM: Unit = whole(*TERMS.start() as u64, *TERMS.end() as u64);
const PERIOD: Unit = whole(*PERIODS.start() as u64, *PERIODS.end() as u64);
const COUNT: Unit = whole(*PAYMENTS.start() as u64, *PAYMENTS.end() as u64);
const INDEX: Unit = whole(*INDICES.start() as u64, *INDICES.end() as u64);
const PRICE: Unit = percent(*CLEAN_PRICES.start() as u64, *CLEAN_PRICES.end() as u64);

fn always(_: &Record) -> bool {
    true
}

fn is_outright(record: &Record) -> bool {
    record.kind == OUTRIGHT
}

fn has_first_value_day(record: &Record) -> bool {
    !record.first_leg_settled()
}

/// In the order in which a dealer would fill them, the kind first.
pub static COLUMNS: [Column; 20] = columns! {
    kind kind (Unit::Words(kinds)) (always) "of trade"
    side side (Unit::Words(sides)) (always) "of the account"
    phase phase (whole(1, 3)) (Record::is_repo) "of a repo, at most 2 for a specified one"
    cash_curve cash_curve (CURVE) (always) "id of the curve for cash"
    security security (Unit::Words(securities)) (always)
        "what the security pays, none in phase 1 of a pool repo"
    security_curve security_curve (CURVE) (Record::has_security) "id of the curve for its payments"
    nominal nominal (AMOUNT) (Record::has_security) "of the security"
    value_day_1 value_day_1 (VALUE_DAY) (has_first_value_day) "of settlement or the first leg"
    value_day_2 value_day_2 (VALUE_DAY) (Record::is_repo) "of a repo's second leg"
    term term (TERM) (Record::is_repo) "of a repo in days"
    first_payment_day first_payment_day (PAYMENT_DAY) (Record::has_security) "of the security"
    period period (PERIOD) (Record::has_coupons) "days from coupon to coupon"
    payments payments (COUNT) (Record::has_coupons) "how many coupons"
    coupon coupon (percent(0, MAX_COUPON as u64)) (Record::has_coupons) "percent per period"
    clean_price price_or_rate (PRICE) (is_outright) "percent, of an outright"
    accrued accrued (percent(0, MAX_ACCRUED as u64)) (is_outright) "percent, of an outright"
    repo_cash repo_cash (AMOUNT) (Record::is_repo) "of a repo's first leg"
    repo_rate price_or_rate (percent(0, MAX_RATE)) (Record::is_repo) "percent a year, of a repo"
    settlement_index settlement_index (INDEX) (Record::is_indexed) "of indexed coupons"
    issue_index issue_index (INDEX) (Record::is_indexed) "of indexed coupons"
};

/// All columns, each of which some trade uses.
pub fn trade_columns() -> Vec<&'static Column> {
    COLUMNS.iter().collect()
}

/// The columns that a coupon bond has by itself, without a trade.
pub fn bond_columns() -> Vec<&'static Column> {
    let names = "nominal first_payment_day period payments coupon";
    names.split(' ').filter_map(Column::named).collect()
}

/// The columns that price a trade of a kind, and no trade of another; none
/// while the kind is not known.
pub(crate) fn prices(kind: u8) -> &'static [&'static str] {
    match kind {
        OUTRIGHT => &["clean_price", "accrued"],
        POOL | SPECIFIED => &["repo_rate", "repo_cash"],
        _ => &[],
    }
}

#[cfg(test)]
mod tests {
    use super::*;
    use crate::decimal::Decimals;
    use seddolki_books::curve::draw_curves;
    use seddolki_books::{draw_record, Draw};
    use seddolki_format::record::RECORD;

    #[test]
    fn names_are_found_in_any_case() {
        for name in ["clean_price", " Clean Price ", "CLEAN_price"] {
            assert_eq!(Column::named(name).unwrap().name, "clean_price");
        }
        for name in ["", "cleanprice", "clean__price", "\u{212a}ind"] {
            assert!(Column::named(name).is_none(), "{name}");
        }
        let fault = Column::find("knd").unwrap_err();
        assert_eq!(fault.to_string(), "there is no column knd: is kind meant?");
    }

    #[test]
    fn every_field_has_its_column() {
        let mut record = Record::default();
        let fields: Vec<&str> = COLUMNS.iter().map(|column| column.field).collect();
        for kind in [OUTRIGHT, POOL, SPECIFIED] {
            record.kind = kind;
            for field in &fields {
                assert_eq!(Column::of_field(&record, field).unwrap().field, *field);
            }
            let price = Column::of_field(&record, "price_or_rate").unwrap();
            assert_eq!(price.name, prices(kind)[0]);
        }
        assert!(Column::of_field(&record, "zero").is_none());
    }

    /// All but the two bytes due to be 0.
    #[test]
    fn columns_cover_the_record() {
        let mut record = Record {
            kind: OUTRIGHT,
            ..Record::default()
        };
        for column in COLUMNS.iter().skip(1) {
            column.set(&mut record, 0xff).unwrap();
        }
        let bytes: [u8; RECORD] = record.into();
        let written = bytes.iter().filter(|byte| **byte == 0xff).count();
        assert_eq!(written, COLUMNS.len() - 2);
        assert_eq!(record.kind, OUTRIGHT);
    }

    #[test]
    fn an_accepted_trade_uses_what_is_not_0() {
        let mut draw = Draw::new(7);
        for _ in 0..2_000 {
            let curves = draw_curves(&mut draw);
            let record = draw_record(&mut draw, &curves, 12);
            for column in &COLUMNS {
                let text = column.text(&record, Decimals::Point);
                assert_eq!(text.is_empty(), !column.is_used(&record), "{record:?}");
                assert!(
                    column.is_used(&record) || column.get(&record) == 0,
                    "{record:?}"
                );
            }
        }
    }
}
