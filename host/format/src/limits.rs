//! The limits that the document names.

use std::ops::RangeInclusive;

pub const MAX_DAY: u64 = 10_950;
pub const MAX_AMOUNT: u64 = 1_000_000_000_000;
pub const MAX_RATE: u64 = 1_000_000;

pub const MAX_BLOCKS: usize = 128;
pub const CURVES: RangeInclusive<u16> = 1..=8;
pub const MAX_CURRENCIES: usize = 3;
pub const NODES: RangeInclusive<u8> = 2..=24;
pub const MAX_STEPS: u8 = 3;
pub const MAX_RANGE: u16 = 10_000;
pub const MAX_COMPONENT: i32 = 1_000_000;
pub const FULL_BLOCK: usize = 9;

pub const PERIODS: RangeInclusive<u16> = 1..=366;
pub const PAYMENTS: RangeInclusive<u16> = 1..=120;
pub const TERMS: RangeInclusive<u16> = 1..=730;
pub const AMOUNTS: RangeInclusive<u64> = 1..=MAX_AMOUNT;
pub const MAX_COUPON: u32 = 1_000_000;
pub const CLEAN_PRICES: RangeInclusive<u32> = 1..=4_000_000;
pub const MAX_ACCRUED: u32 = 1_000_000;
pub const INDICES: RangeInclusive<u32> = 1..=10_000_000;
