//! Books to take times on, the same on every machine.

use crate::{draw_record_paying, most_trades, Draw, PaymentDays};
use seddolki_model::{
    Book, Curve, Date, Node, Record, COUPONS, FIRST_SIDE, MAX_CURRENCIES, MAX_STEPS, ONE, OUTRIGHT,
    PAYMENTS, SECOND_SIDE, SINGLE_PAYMENT,
};

const NODE_DAYS: [u16; 10] = [1, 30, 91, 182, 365, 730, 1_095, 1_825, 3_650, 7_300];

/// One curve and a few trades.
pub fn small_book() -> Book {
    mixed_book(1, 5, [MAX_STEPS; 3])
}

/// A curve for each currency, and trades of every kind.
pub fn typical_book() -> Book {
    mixed_book(3, 200, [MAX_STEPS; 3])
}

/// As many blocks as a book can have, and as many payments as a trade can.
pub fn full_book() -> Book {
    let mut draw = Draw::new(8);
    let curves = curves(&mut draw, 8);
    let count = most_trades(&curves);
    let trades = (0..count).map(|_| bond(&mut draw, &curves)).collect();
    book(curves, trades)
}

/// A typical book whose second component is 0 at every node: each scenario
/// has six others with the same stressed nodes.
pub fn zero_component_book() -> Book {
    let mut book = typical_book();
    for curve in &mut book.curves {
        for node in &mut curve.places {
            node.components[1] = 0;
        }
    }
    book
}

/// As many curves and trades as a typical book. Only a node behind all other
/// flows is stressed, and a lira and a half falls there: no two scenarios of
/// a curve have the same nodes, and all lose within some kuruş of each other.
pub fn near_tie_book() -> Book {
    let mut draw = Draw::new(5);
    let mut curves = curves(&mut draw, 3);
    let trades = (0..200)
        .map(|i| match curves.get(i) {
            Some(curve) => payment(curve, curve.last_node().day, 150),
            None => Record {
                payments: 3,
                ..bond(&mut draw, &curves)
            },
        })
        .collect();
    for curve in &mut curves {
        stress_the_last_node_alone(curve);
    }
    book(curves, trades)
}

fn stress_the_last_node_alone(curve: &mut Curve) {
    let last = usize::from(curve.node_count) - 1;
    for node in &mut curve.places[..last] {
        node.components = [0; 3];
    }
    curve.places[last].components = [20_000, 3_000, 500];
}

/// A single payment on a day, for as much today.
pub(crate) fn payment(curve: &Curve, day: u16, nominal: u64) -> Record {
    Record {
        kind: OUTRIGHT,
        side: FIRST_SIDE,
        security: SINGLE_PAYMENT,
        security_curve: curve.id,
        cash_curve: curve.id,
        first_payment_day: day,
        nominal,
        price_or_rate: ONE as u32,
        ..Record::default()
    }
}

pub(crate) fn book(curves: Vec<Curve>, trades: Vec<Record>) -> Book {
    Book {
        account: 42,
        valuation_day: Date::FIRST,
        curves,
        trades,
    }
}

/// So many curves, each with these steps, and trades of every kind. Repos pay
/// behind their terms alone, so that times can be held against earlier ones.
pub fn mixed_book(curve_count: u8, trade_count: usize, steps: [u8; 3]) -> Book {
    let mut draw = Draw::new(curve_count.into());
    let mut curves = curves(&mut draw, curve_count);
    for curve in &mut curves {
        curve.steps = steps;
    }
    let trades = (0..trade_count)
        .map(|_| draw_record_paying(&mut draw, &curves, 20, PaymentDays::Behind))
        .collect();
    book(curves, trades)
}

/// Curves around 13%, each with all scenarios: its level, slope and bend.
pub(crate) fn curves(draw: &mut Draw, count: u8) -> Vec<Curve> {
    (1..=count).map(|id| curve(draw, id)).collect()
}

fn curve(draw: &mut Draw, id: u8) -> Curve {
    let node = |(i, day): (usize, u16)| Node {
        day,
        rate: draw.within(123_000..=142_000) as u32,
        components: [20_000, 3_000 * i as i32 - 15_000, 800 * i as i32],
    };
    let nodes: Vec<Node> = NODE_DAYS.into_iter().enumerate().map(node).collect();
    Curve {
        steps: [MAX_STEPS; 3],
        ranges: [150, 100, 100],
        ..Curve::new(id, (id - 1) % MAX_CURRENCIES as u8 + 1, &nodes)
    }
}

/// A bond bought or sold, with as many coupons as there can be.
pub(crate) fn bond(draw: &mut Draw, curves: &[Curve]) -> Record {
    let security = draw.pick(curves);
    let same = |curve: &&Curve| curve.currency == security.currency;
    let cash: Vec<Curve> = curves.iter().filter(same).copied().collect();
    Record {
        kind: OUTRIGHT,
        side: draw.pick(&[FIRST_SIDE, SECOND_SIDE]),
        security: COUPONS,
        security_curve: security.id,
        cash_curve: draw.pick(&cash).id,
        value_day_1: draw.within(1..=2) as u16,
        first_payment_day: draw.within(3..=60) as u16,
        period: draw.within(60..=80) as u16,
        payments: *PAYMENTS.end(),
        coupon: 30_000,
        nominal: draw.within(100_000_000..=10_000_000_000),
        price_or_rate: draw.within(920_000..=1_050_000) as u32,
        accrued: draw.within(0..=40_000) as u32,
        ..Record::default()
    }
}
