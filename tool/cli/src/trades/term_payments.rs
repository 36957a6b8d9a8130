//! The payments of a repo's security, inside the repo's term and after it.

use seddolki::Record;

/// When a repo's security pays.
pub struct TermPayments {
    /// The days after value day 1 and up to value day 2.
    pub inside: Vec<u64>,
    /// How many payments come after value day 2.
    pub after: usize,
}

impl TermPayments {
    /// None where the trade is no repo or has no security. The record need not
    /// be accepted by a book.
    pub fn of(record: &Record) -> Option<Self> {
        if !record.is_repo() || !record.has_security() {
            return None;
        }
        let days = payment_days(record);
        let end = u64::from(record.value_day_2);
        Some(TermPayments {
            after: days.iter().filter(|day| **day > end).count(),
            inside: days
                .into_iter()
                .filter(|day| record.in_term(*day))
                .collect(),
        })
    }
}

fn payment_days(record: &Record) -> Vec<u64> {
    let payments = if record.has_coupons() {
        record.payments
    } else {
        1
    };
    let [first, period] = [record.first_payment_day, record.period].map(u64::from);
    let day = |i: u16| first + u64::from(i) * period;
    (0..payments).map(day).collect()
}

#[cfg(test)]
mod tests {
    use super::*;
    use seddolki_format::record::{COUPONS, OUTRIGHT, POOL, SINGLE_PAYMENT, SPECIFIED};

    /// From day 10 to day 40, with coupons on days 20, 30, 40 and 50.
    fn repo() -> Record {
        Record {
            kind: SPECIFIED,
            phase: 1,
            security: COUPONS,
            value_day_1: 10,
            value_day_2: 40,
            first_payment_day: 20,
            period: 10,
            payments: 4,
            ..Record::default()
        }
    }

    fn days(record: &Record) -> (Vec<u64>, usize) {
        let payments = TermPayments::of(record).unwrap();
        (payments.inside, payments.after)
    }

    #[test]
    fn value_day_2_is_the_last_day_of_the_term() {
        assert_eq!(days(&repo()), (vec![20, 30, 40], 1));
        for (value_day_2, inside, after) in [(39, 2, 2), (19, 0, 4), (20, 1, 3), (50, 4, 0)] {
            let repo = Record {
                value_day_2,
                ..repo()
            };
            let (found, later) = days(&repo);
            assert_eq!((found.len(), later), (inside, after), "{value_day_2}");
        }
    }

    #[test]
    fn value_day_1_is_before_the_term() {
        let repo = Record {
            first_payment_day: 10,
            ..repo()
        };
        assert_eq!(days(&repo), (vec![20, 30, 40], 0));
    }

    #[test]
    fn a_single_payment_has_no_period() {
        for (first_payment_day, due) in [(41, (vec![], 1)), (40, (vec![40], 0))] {
            let repo = Record {
                security: SINGLE_PAYMENT,
                first_payment_day,
                period: 0,
                payments: 0,
                ..repo()
            };
            assert_eq!(days(&repo), due);
        }
    }

    #[test]
    fn the_term_of_a_settled_repo_ends_on_value_day_2_too() {
        let settled = Record {
            phase: 2,
            value_day_1: 0,
            value_day_2: 25,
            ..repo()
        };
        assert_eq!(days(&settled), (vec![20], 3));
    }

    #[test]
    fn only_repos_with_a_security_have_payments_in_a_term() {
        let outright = Record {
            kind: OUTRIGHT,
            ..repo()
        };
        let pool = Record {
            kind: POOL,
            security: 0,
            ..repo()
        };
        assert!(TermPayments::of(&outright).is_none());
        assert!(TermPayments::of(&pool).is_none());
    }
}
