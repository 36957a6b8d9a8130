//! Books with as much in flows as a book can have.

use crate::{bring_within_limit, most_trades};
use seddolki_model::{
    Book, Curve, Date, Node, Record, COUPONS, FIRST_SIDE, MAX_AMOUNT, MAX_COMPONENT, MAX_COUPON,
    MAX_RATE, PAYMENTS, SECOND_SIDE, SPECIFIED, TERMS,
};

/// What tells such books apart. All flows are far off: an amount is worth
/// itself at rate 0, and next to nothing at 100%.
#[derive(Clone, Copy, Debug)]
pub struct Largest {
    pub curves: u8,
    /// The curves take them in turn.
    pub currencies: u8,
    /// Of every curve.
    rate: u32,
    /// At every node; scenarios go up and down by it.
    component: i32,
    /// Of every trade: side 1 pays, side 2 is paid.
    side: u8,
}

impl Largest {
    /// The base value as high as can be; as low as can be; the loss as large
    /// as can be, from a high base value and from next to none.
    pub fn all(curves: u8, currencies: u8) -> [Self; 4] {
        [
            (0, 0, SECOND_SIDE),
            (0, 0, FIRST_SIDE),
            (0, MAX_COMPONENT, SECOND_SIDE),
            (MAX_RATE as u32, MAX_COMPONENT, FIRST_SIDE),
        ]
        .map(|(rate, component, side)| Largest {
            curves,
            currencies,
            rate,
            component,
            side,
        })
    }

    /// As many trades as the book takes, on each curve in turn.
    pub fn book(self) -> Book {
        let curves: Vec<Curve> = (1..=self.curves).map(|id| self.curve(id)).collect();
        let mut trades: Vec<Record> = curves.iter().map(|curve| self.repo(curve.id)).collect();
        for trade in &mut trades {
            bring_within_limit(trade, &curves);
        }
        let count = most_trades(&curves);
        Book {
            account: u32::MAX,
            valuation_day: Date::LAST,
            trades: trades.into_iter().cycle().take(count).collect(),
            curves,
        }
    }

    fn curve(self, id: u8) -> Curve {
        let node = |day| Node {
            day,
            rate: self.rate,
            components: [self.component, 0, 0],
        };
        Curve {
            steps: [1, 0, 0],
            ranges: [100, 0, 0],
            ..Curve::new(id, (id - 1) % self.currencies + 1, &[node(1), node(2)])
        }
    }

    /// Of the longest term and at the highest rate, its cash still to be
    /// brought within its limit. As many coupons of 10^12 as can be fall inside
    /// the term; the last payment, which the nominal is added to, falls behind
    /// it and is no flow.
    fn repo(self, curve: u8) -> Record {
        let (value_day_1, term, period) = (10_000, *TERMS.end(), 6);
        let value_day_2 = value_day_1 + term;
        let payments = *PAYMENTS.end();
        Record {
            kind: SPECIFIED,
            side: self.side,
            phase: 1,
            security_curve: curve,
            cash_curve: curve,
            security: COUPONS,
            value_day_1,
            value_day_2,
            first_payment_day: value_day_2 - (payments - 2) * period,
            period,
            payments,
            term,
            coupon: MAX_COUPON,
            nominal: MAX_AMOUNT,
            repo_cash: MAX_AMOUNT,
            price_or_rate: MAX_RATE as u32,
            ..Record::default()
        }
    }
}
