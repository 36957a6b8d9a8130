//! Which payments of a repo's security are cash flows, by their days: the
//! report, its tolerance and ground 12 count these alone.

use seddolki::{Book, CurveFigures, Ground, Record, Refusal};
use seddolki_books::{assemble, undiscounted_book};
use seddolki_format::{
    Curve, COUPONS, INDEXED_COUPONS, MAX_AMOUNT, POOL, SINGLE_PAYMENT, SPECIFIED,
};

/// A repo by kind, phase and side, and the signs of its security's payments.
struct Form {
    of: (u8, u8, u8),
    up_to_value_day_2: i64,
    after_value_day_2: i64,
}

const fn form(of: (u8, u8, u8), up_to_value_day_2: i64, after_value_day_2: i64) -> Form {
    Form {
        of,
        up_to_value_day_2,
        after_value_day_2,
    }
}

const FORMS: [Form; 8] = [
    form((POOL, 2, 1), -1, 0),
    form((POOL, 2, 2), 1, 0),
    form((POOL, 3, 1), 0, 1),
    form((POOL, 3, 2), 0, 0),
    form((SPECIFIED, 1, 1), -1, 0),
    form((SPECIFIED, 1, 2), 1, 0),
    form((SPECIFIED, 2, 1), 0, 1),
    form((SPECIFIED, 2, 2), 0, -1),
];

const VALUE_DAY_1: u16 = 3;
const VALUE_DAY_2: u16 = 7;

/// Some days behind value day 2 are tried too.
const LAST_DAY: u16 = VALUE_DAY_2 + 3;

impl Form {
    fn sign_on(&self, day: u16) -> i64 {
        if day <= VALUE_DAY_2 {
            self.up_to_value_day_2
        } else {
            self.after_value_day_2
        }
    }

    /// The repo with a single payment.
    fn paying_on(&self, first_payment_day: u16, nominal: u64) -> Record {
        let (kind, phase, side) = self.of;
        let settled = Record {
            kind,
            phase,
            side,
            security_curve: 1,
            cash_curve: 2,
            security: SINGLE_PAYMENT,
            value_day_2: VALUE_DAY_2,
            term: VALUE_DAY_2,
            first_payment_day,
            nominal,
            repo_cash: 1_000,
            ..Record::default()
        };
        if settled.first_leg_settled() {
            return settled;
        }
        Record {
            value_day_1: VALUE_DAY_1,
            term: VALUE_DAY_2 - VALUE_DAY_1,
            ..settled
        }
    }

    /// The first days on which a payment may fall.
    fn first_days(&self) -> impl Iterator<Item = u16> {
        1 + self.paying_on(0, 1).value_day_1..=LAST_DAY
    }
}

/// Two curves at rate 0, where an amount is worth itself on every day.
fn empty_book() -> Book {
    let mut parts = undiscounted_book();
    let cash_curve = Curve {
        number: 2,
        id: 2,
        ..parts.curves[0]
    };
    parts.curves.push(cash_curve);
    parts.trades.clear();
    Book::from_bytes(assemble(&parts))
}

/// What the report shows of the security curve with the trade alone.
fn shown(trade: &Record) -> Result<CurveFigures, Refusal> {
    let mut book = empty_book();
    let day = book.valuation_day()?;
    let previewed = book.preview(day, trade);
    let report = book.append(day, trade).and_then(|_| book.margin(day));
    assert_eq!(previewed, report);
    report.map(|report| report.curves[0])
}

#[test]
fn a_payment_counts_by_its_day() {
    for form in &FORMS {
        for day in form.first_days() {
            let figures = shown(&form.paying_on(day, MAX_AMOUNT)).unwrap();
            let sign = form.sign_on(day);
            assert_eq!(figures.base, sign * MAX_AMOUNT as i64);
            // 2 a day for the largest amount
            let tolerance = 2 * u64::from(day) * sign.unsigned_abs();
            assert_eq!(figures.tolerance, tolerance, "{:?} {day}", form.of);
        }
    }
}

#[test]
fn a_first_payment_that_is_not_after_the_first_leg_is_refused() {
    let days = Err(Ground::Days.in_block(3));
    for form in &FORMS {
        let value_day = form.paying_on(0, 1).value_day_1;
        for day in 0..=value_day {
            let figures = shown(&form.paying_on(day, 1));
            assert_eq!(figures, days, "{:?} {day}", form.of);
        }
    }
}

/// The sum of a bond's payments that count, one by one.
fn sum(form: &Form, bond: &Record, coupon: i64, nominal: i64) -> i64 {
    let payment = |i: u16| {
        let day = bond.first_payment_day + i * bond.period;
        let last = i + 1 == bond.payments;
        form.sign_on(day) * if last { coupon + nominal } else { coupon }
    };
    (0..bond.payments).map(payment).sum()
}

/// Bonds of 1,000 with coupons of 100, with some days and payments.
fn bonds(form: &Form) -> impl Iterator<Item = Record> + '_ {
    let schedules = (1..=5).flat_map(|payments| (1..=4).map(move |period| (payments, period)));
    schedules.flat_map(move |(payments, period)| {
        form.first_days().map(move |day| Record {
            security: COUPONS,
            payments,
            period,
            coupon: 100_000,
            ..form.paying_on(day, 1_000)
        })
    })
}

#[test]
fn coupons_count_one_by_one() {
    for form in &FORMS {
        for bond in bonds(form) {
            let due = sum(form, &bond, 100, 1_000);
            assert_eq!(shown(&bond).unwrap().base, due, "{bond:?}");
            let indexed = Record {
                security: INDEXED_COUPONS,
                settlement_index: 30,
                issue_index: 20,
                ..bond
            };
            let due = sum(form, &indexed, 150, 1_500);
            assert_eq!(shown(&indexed).unwrap().base, due, "{indexed:?}");
        }
    }
}

#[test]
fn the_limit_is_asked_of_the_payments_that_count() {
    for form in &FORMS {
        for day in form.first_days() {
            let too_large = Record {
                security: COUPONS,
                payments: 1,
                period: 1,
                coupon: 1,
                ..form.paying_on(day, MAX_AMOUNT)
            };
            let counts = form.sign_on(day) != 0;
            let refusal = counts.then(|| Ground::FlowLimit.in_block(3));
            assert_eq!(shown(&too_large).err(), refusal, "{:?} {day}", form.of);
        }
    }
}
