//! A trade that several tests start from.

use seddolki_model::Record;

/// Bought, with a single payment in a year, both on curve 1.
pub fn single_payment() -> Record {
    Record {
        kind: 1,
        side: 1,
        security_curve: 1,
        cash_curve: 1,
        security: 1,
        first_payment_day: 365,
        nominal: 100_000,
        price_or_rate: 700_000,
        ..Record::default()
    }
}
