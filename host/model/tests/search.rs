//! The searches find what trying every number would.

use seddolki_model::{largest, smallest};

const LIMIT: u64 = 40;

#[test]
fn the_smallest_that_fits() {
    for first in 0..=LIMIT {
        assert_eq!(smallest(LIMIT, |number| number >= first), first);
    }
}

#[test]
fn the_largest_that_fits() {
    for last in 0..=LIMIT {
        for guess in 0..=LIMIT + 2 {
            assert_eq!(largest(LIMIT, guess, |number| number <= last), last);
        }
    }
}
