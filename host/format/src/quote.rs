//! What lengthens a curve: a coupon bond and what it costs today.

use crate::{Layout, Record, COUPONS, FIRST_SIDE, OUTRIGHT, RECORD};

/// Bytes of a bond.
pub const BOND: usize = 20;

/// The first byte of a bond in a record.
const FIRST_BYTE: usize = 12;

/// A coupon bond's settlement cash today, and what the node on its last
/// payment day takes besides the rate.
#[derive(Clone, Copy, Debug, Default, PartialEq, Eq)]
pub struct Quote {
    /// Id of the curve that takes the node.
    pub curve: usize,
    /// A record's bytes 12 to 31: first payment day, period, payments, term,
    /// coupon, nominal.
    pub bond: [u8; BOND],
    /// In hundredths.
    pub cash: u64,
    /// Of the node.
    pub components: [i32; 3],
}

impl Quote {
    /// The bond bought outright today. The curves and the price, which the
    /// bond's bytes leave out, are 0.
    pub fn purchase(&self) -> Record {
        let mut bytes = [0; RECORD];
        bytes[FIRST_BYTE..][..BOND].copy_from_slice(&self.bond);
        Record {
            kind: OUTRIGHT,
            side: FIRST_SIDE,
            security: COUPONS,
            ..Record::decode(&bytes)
        }
    }
}

/// The bond's bytes in a record.
pub fn bond_of(record: &Record) -> [u8; BOND] {
    let bytes: [u8; RECORD] = record.to_bytes();
    std::array::from_fn(|at| bytes[FIRST_BYTE + at])
}

#[cfg(test)]
mod tests {
    use super::*;

    #[test]
    fn a_bond_is_the_bytes_from_first_payment_day_to_nominal() {
        let record = Record {
            first_payment_day: 0x0102,
            period: 0x0304,
            payments: 0x0506,
            term: 0x0708,
            coupon: 0x090a_0b0c,
            nominal: 0x0d0e_0f10_1112_1314,
            ..Record::default()
        };
        let bond = [
            2, 1, 4, 3, 6, 5, 8, 7, 12, 11, 10, 9, 20, 19, 18, 17, 16, 15, 14, 13,
        ];
        assert_eq!(bond_of(&record), bond);
        let quote = Quote {
            bond,
            ..Quote::default()
        };
        let purchase = Record {
            kind: OUTRIGHT,
            side: FIRST_SIDE,
            security: COUPONS,
            ..record
        };
        assert_eq!(quote.purchase(), purchase);
    }

    #[test]
    fn no_other_field_is_in_a_bond() {
        let other = Record {
            value_day_2: u16::MAX,
            repo_cash: u64::MAX,
            ..Record::default()
        };
        assert_eq!(bond_of(&other), [0; BOND]);
    }
}
