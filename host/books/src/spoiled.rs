//! The spoiled forms of something whole.

use crate::Draw;
use std::ops::RangeInclusive;

pub(crate) struct Spoiled<T> {
    pub whole: T,
    pub list: Vec<T>,
}

impl<T: Copy> Spoiled<T> {
    pub fn new(whole: T) -> Self {
        let list = vec![];
        Spoiled { whole, list }
    }

    pub fn add(&mut self, change: impl Fn(&mut T)) {
        let mut form = self.whole;
        change(&mut form);
        self.list.push(form);
    }

    /// One form for each value that something is set to.
    pub fn set<V: Copy>(&mut self, values: &[V], change: impl Fn(&mut T, V)) {
        for &value in values {
            self.add(|form| change(form, value));
        }
    }

    /// One form for each wrong number of a field.
    pub fn set_wrong(
        &mut self,
        used: bool,
        limits: RangeInclusive<impl Into<u64>>,
        change: impl Fn(&mut T, u64),
    ) {
        self.set(&wrong_numbers(used, limits), change);
    }

    /// One of the forms, if there is any.
    pub fn draw(self, draw: &mut Draw) -> Option<T> {
        (!self.list.is_empty()).then(|| draw.pick(&self.list))
    }
}

/// Numbers that a field must not hold: those next to its limits and the
/// largest, or, where the field is not used, any but 0.
pub(crate) fn wrong_numbers(used: bool, limits: RangeInclusive<impl Into<u64>>) -> [u64; 3] {
    let (first, last) = limits.into_inner();
    match used {
        true => [first.into().wrapping_sub(1), last.into() + 1, u64::MAX],
        false => [1, last.into(), u64::MAX],
    }
}
