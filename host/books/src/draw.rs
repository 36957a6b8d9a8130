//! A small random generator (SplitMix64).

use std::ops::RangeInclusive;

pub struct Draw(u64);

impl Draw {
    pub fn new(seed: u64) -> Self {
        Draw(seed)
    }

    pub fn number(&mut self) -> u64 {
        self.0 = self.0.wrapping_add(0x9e37_79b9_7f4a_7c15);
        let mut mixed = self.0;
        mixed = (mixed ^ (mixed >> 30)).wrapping_mul(0xbf58_476d_1ce4_e5b9);
        mixed = (mixed ^ (mixed >> 27)).wrapping_mul(0x94d0_49bb_1331_11eb);
        mixed ^ (mixed >> 31)
    }

    /// A number of the range; all are equally likely.
    pub fn within(&mut self, range: RangeInclusive<u64>) -> u64 {
        let (low, high) = range.into_inner();
        let count = u128::from(high - low) + 1;
        low + ((u128::from(self.number()) * count) >> 64) as u64
    }

    /// A number of the range: often an end, else as likely small as large.
    pub fn edge(&mut self, range: RangeInclusive<u64>) -> u64 {
        let (low, high) = range.into_inner();
        match self.within(0..=7) {
            0 => low,
            1 => high,
            2 => self.within(low..=high),
            _ => {
                let bits = u64::from(u64::BITS - (high - low).leading_zeros());
                let width = (high - low) >> self.within(0..=bits.saturating_sub(1));
                low + self.within(0..=width)
            }
        }
    }

    /// True once in so many.
    pub fn once_in(&mut self, times: u64) -> bool {
        self.within(1..=times) == 1
    }

    /// A place of a list of this length, which is not 0.
    pub fn place(&mut self, length: usize) -> usize {
        self.within(0..=length as u64 - 1) as usize
    }

    pub fn pick<T: Copy>(&mut self, list: &[T]) -> T {
        list[self.place(list.len())]
    }

    pub fn bytes(&mut self, length: usize) -> Vec<u8> {
        (0..length).map(|_| self.number() as u8).collect()
    }
}
