//! A trade's record.

use crate::layout::{layout, Layout};
use std::ops::RangeInclusive;

pub const OUTRIGHT: u8 = 1;
pub const POOL: u8 = 2;
pub const SPECIFIED: u8 = 3;

/// Buyer or repo member.
pub const FIRST_SIDE: u8 = 1;
/// Seller or reverse-repo member.
pub const SECOND_SIDE: u8 = 2;

pub const NO_SECURITY: u8 = 0;
pub const SINGLE_PAYMENT: u8 = 1;
pub const COUPONS: u8 = 2;
pub const INDEXED_COUPONS: u8 = 3;

/// Bytes of a record.
pub const RECORD: usize = 56;

layout! {
    /// The 56 bytes of a record by their names. A field that the trade does
    /// not use is 0.
    Record of 56 {
        /// 1 outright, 2 pool repo, 3 specified repo.
        kind: u8 = 0,
        /// 1 buyer or repo member, 2 seller or reverse-repo member.
        side: u8 = 1,
        /// 0 for an outright, 1 to 3 for a pool repo, 1 to 2 for a specified one.
        phase: u8 = 2,
        security_curve: u8 = 3,
        cash_curve: u8 = 4,
        /// 0 none, 1 single payment, 2 coupons, 3 indexed coupons.
        security: u8 = 5,
        /// Bytes 6-7, always due to be 0.
        zero: u16 = 6,
        value_day_1: u16 = 8,
        value_day_2: u16 = 10,
        first_payment_day: u16 = 12,
        period: u16 = 14,
        payments: u16 = 16,
        term: u16 = 18,
        coupon: u32 = 20,
        nominal: u64 = 24,
        repo_cash: u64 = 32,
        /// Clean price of an outright, repo rate of a repo.
        price_or_rate: u32 = 40,
        accrued: u32 = 44,
        settlement_index: u32 = 48,
        issue_index: u32 = 52,
    }
}

impl From<Record> for [u8; RECORD] {
    fn from(record: Record) -> Self {
        record.to_bytes()
    }
}

impl Record {
    pub fn is_repo(&self) -> bool {
        self.kind != OUTRIGHT
    }

    /// A repo whose first leg has settled.
    pub fn first_leg_settled(&self) -> bool {
        matches!((self.kind, self.phase), (POOL, 3) | (SPECIFIED, 2))
    }

    /// The securities that the kind and phase allow.
    pub fn securities(&self) -> RangeInclusive<u8> {
        if self.kind == POOL && self.phase == 1 {
            NO_SECURITY..=NO_SECURITY
        } else {
            SINGLE_PAYMENT..=INDEXED_COUPONS
        }
    }

    pub fn has_security(&self) -> bool {
        self.security != NO_SECURITY
    }

    pub fn has_coupons(&self) -> bool {
        matches!(self.security, COUPONS | INDEXED_COUPONS)
    }

    pub fn is_indexed(&self) -> bool {
        self.security == INDEXED_COUPONS
    }

    /// The day after which the first payment falls: value day 1, or today
    /// where that is unused.
    pub fn payments_after(&self) -> u16 {
        if self.first_leg_settled() {
            0
        } else {
            self.value_day_1
        }
    }

    /// Whether a payment of a repo's security on a day falls inside the term:
    /// after value day 1, or after today where that is unused, and up to value
    /// day 2.
    pub fn in_term(&self, day: u64) -> bool {
        self.is_repo() && day > self.payments_after().into() && day <= self.value_day_2.into()
    }

    /// Days from the first payment to the last; 0 with fewer than two.
    pub fn payment_span(&self) -> u64 {
        u64::from(self.payments).saturating_sub(1) * u64::from(self.period)
    }

    pub fn last_payment_day(&self) -> u64 {
        u64::from(self.first_payment_day) + self.payment_span()
    }
}
