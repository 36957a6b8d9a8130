//! How often a run has reached each case.

use std::collections::BTreeMap;
use std::fmt::Debug;

/// How often each case was reached.
#[derive(Debug)]
pub struct Tally<E>(BTreeMap<E, u64>);

impl<E> Default for Tally<E> {
    fn default() -> Self {
        Tally(BTreeMap::new())
    }
}

impl<E: Debug + Ord> Tally<E> {
    pub fn add(&mut self, case: E) {
        *self.0.entry(case).or_default() += 1;
    }

    /// Panics unless each of these was reached so often at least, and no other
    /// one was.
    pub fn assert_all(mut self, all: impl IntoIterator<Item = E>, least: u64) {
        println!("{:?}", self.0);
        for case in all {
            let count = self.0.remove(&case).unwrap_or(0);
            assert!(count >= least, "{case:?}: {count}");
        }
        assert!(self.0.is_empty(), "not among all: {:?}", self.0);
    }
}
