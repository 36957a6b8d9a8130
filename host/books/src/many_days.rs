//! Books with flows on many days of one curve.

use crate::listed_enum::listed_enum;
use crate::{bring_near, draw_so_many_curves, timing, Draw, NearTies};
use seddolki_model::{
    scenarios, Book, CashFlow, Curve, Record, FIRST_SIDE, MAX_AMOUNT, MAX_DAY, MAX_STEPS, PAYMENTS,
    SECOND_SIDE,
};
use std::collections::{BTreeMap, BTreeSet};
use std::ops::Range;

listed_enum! {
    /// How many days of a curve have a net amount, roughly.
    pub enum Days {
        Few,
        Hundreds,
        Many,
    }
}

impl Days {
    fn counts(self) -> Range<u64> {
        match self {
            Days::Few => 1..250,
            Days::Hundreds => 250..600,
            Days::Many => 600..MAX_DAY + 2,
        }
    }
}

/// What the time of a curve's margin grows with. An engine may find the worst
/// scenario in another way where there is much of it: from where on is its own
/// affair, and the borders here are none of its.
#[derive(Clone, Copy, Debug, PartialEq, Eq, PartialOrd, Ord)]
pub struct Extent {
    pub days: Days,
    /// A month with such a day has several, on average.
    pub close: bool,
    pub many_scenarios: bool,
}

const MONTH: u64 = 30;

/// More days in a month are several.
const SEVERAL: u64 = 4;

/// As many at least as with a step of each component.
const SOME_SCENARIOS: usize = 27;
const MANY_SCENARIOS: usize = 100;

/// Bonds that are hedged with each other.
const HEDGE: u64 = 3;

impl Extent {
    pub fn all() -> Vec<Extent> {
        let both = [true, false];
        let of_days = |days| both.map(|close| both.map(|many| Extent::new(days, close, many)));
        Days::ALL.into_iter().flat_map(of_days).flatten().collect()
    }

    fn new(days: Days, close: bool, many_scenarios: bool) -> Extent {
        Extent {
            days,
            close,
            many_scenarios,
        }
    }

    /// That of a curve with these flows, which are not all 0.
    pub fn of(curve: &Curve, flows: &[CashFlow]) -> Extent {
        let days = days_with_net_amount(flows);
        let count = days.len() as u64;
        let months: BTreeSet<u64> = days.iter().map(|day| day / MONTH).collect();
        let fits = |size: &Days| size.counts().contains(&count);
        Extent::new(
            Days::ALL.into_iter().find(fits).expect("a day at least"),
            count > SEVERAL * months.len() as u64,
            scenarios(curve).len() >= MANY_SCENARIOS,
        )
    }

    /// A book with one curve of this extent. Its rates are around 13% or any;
    /// at times its scenarios are hard to tell apart, or nodes a day apart.
    pub fn draw_book(self, draw: &mut Draw) -> Book {
        let mut curves = match draw.once_in(2) {
            true => timing::curves(draw, 1),
            false => draw_so_many_curves(draw, 1),
        };
        if draw.once_in(3) {
            let ties = draw.pick(NearTies::of_curves());
            bring_near(draw, ties, &mut curves[0]);
        }
        if draw.once_in(3) {
            bring_nodes_together(draw, &mut curves[0]);
        }
        self.draw_steps(draw, &mut curves[0]);
        let mut trades = self.draw_trades(draw, &curves);
        if !draw.once_in(4) {
            add_large_payment(&mut curves[0], &mut trades);
        }
        timing::book(curves, trades)
    }

    fn draw_steps(self, draw: &mut Draw, curve: &mut Curve) {
        loop {
            curve.steps = [(); 3].map(|()| draw.within(0..=MAX_STEPS.into()) as u8);
            let count = scenarios(curve).len();
            if count >= SOME_SCENARIOS && (count >= MANY_SCENARIOS) == self.many_scenarios {
                return;
            }
        }
    }

    /// Bonds with days of their own, ten on the same days, or often hedged ones.
    fn draw_trades(self, draw: &mut Draw, curves: &[Curve]) -> Vec<Record> {
        let bonds = self.draw_bonds(draw, curves);
        match draw.within(0..=3) {
            0 => bonds,
            1 => {
                let count = 10 * bonds.len();
                let often = bonds.into_iter().cycle().take(count);
                often.map(|bond| with_amount(draw, bond)).collect()
            }
            _ => hedged(bonds),
        }
    }

    /// Bonds that pay in turn, so many that they can be hedged.
    fn draw_bonds(self, draw: &mut Draw, curves: &[Curve]) -> Vec<Record> {
        let Range { start, end } = self.days.counts();
        let days = draw.within(start.max(120)..=end.min(start + 350) - 10);
        let bonds = HEDGE * days.div_ceil(HEDGE * u64::from(*PAYMENTS.end()));
        let payments = days.div_ceil(bonds);
        let most = (MAX_DAY - 1) / (bonds * payments);
        let apart = match self.close {
            true => draw.within(1..=MONTH / (SEVERAL + 1)),
            false => draw.within(MONTH / (SEVERAL - 1)..=most.min(MONTH)),
        };
        let first = 1 + draw.within(0..=MAX_DAY - 1 - bonds * payments * apart);
        let bond = |place| {
            let bond = Record {
                value_day_1: 0,
                first_payment_day: (first + place * apart) as u16,
                period: (bonds * apart) as u16,
                payments: payments as u16,
                ..timing::bond(draw, curves)
            };
            with_amount(draw, bond)
        };
        (0..bonds).map(bond).collect()
    }
}

/// Moves the nodes behind one of them to the days next to it.
fn bring_nodes_together(draw: &mut Draw, curve: &mut Curve) {
    let nodes = &mut curve.places[..curve.node_count.into()];
    let from = draw.place(nodes.len() - 1);
    let first = nodes[from].day;
    for (node, day) in nodes[from..].iter_mut().zip(first..) {
        node.day = day;
    }
}

/// The days of a curve's flows on which these do not cancel.
pub fn days_with_net_amount(flows: &[CashFlow]) -> Vec<u64> {
    let mut nets: BTreeMap<u64, i128> = BTreeMap::new();
    for flow in flows {
        *nets.entry(flow.day).or_default() += i128::from(flow.sign) * flow.amount as i128;
    }
    nets.retain(|_, net| *net != 0);
    nets.into_keys().collect()
}

/// A bond of another amount, at times one so small that rates move its value
/// by a few kuruş. Every coupon of 3% is some.
fn with_amount(draw: &mut Draw, bond: Record) -> Record {
    let most = draw.pick(&[1_000, 1_000_000, 100_000_000_000]);
    Record {
        side: draw.pick(&[FIRST_SIDE, SECOND_SIDE]),
        nominal: draw.within(100..=most),
        ..bond
    }
}

/// Of three bonds the middle one pays what the two beside it receive, or the
/// other way round: where rates move alike, hardly anything is lost.
fn hedged(mut bonds: Vec<Record>) -> Vec<Record> {
    for hedge in bonds.chunks_exact_mut(HEDGE as usize) {
        let Record { side, nominal, .. } = hedge[0];
        hedge[1].side = FIRST_SIDE + SECOND_SIDE - side;
        hedge[1].nominal = 2 * nominal;
        (hedge[2].side, hedge[2].nominal) = (side, nominal);
    }
    bonds
}

/// A payment by which the first component alone tells most scenarios from the
/// worst; the others do not move the rate of its day, the first node's.
fn add_large_payment(curve: &mut Curve, trades: &mut Vec<Record>) {
    let payment = timing::payment(curve, curve.places[0].day, MAX_AMOUNT);
    if payment.first_payment_day > payment.value_day_1 {
        curve.places[0].components[1..].fill(0);
        trades.push(payment);
    }
}
