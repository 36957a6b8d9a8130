//! Amounts that are worth whole kuruş and a half, or next to it, and where
//! flows of a half are in a report.

use crate::listed_enum::listed_enum;
use crate::{payment, Draw};
use seddolki_model::{
    discount_factor, rate_on, scenarios, stressed_nodes, CashFlow, Curve, CurveFigures, Node,
    Record, FIRST_SIDE, MAX_DAY, SECOND_SIDE, UNIT, YEAR,
};
use std::cmp::Ordering;

/// Half a kuruş in amount × factor, of which S are a kuruş.
const HALF: u64 = UNIT / 2;

/// What differs from a half by a millionth of a kuruş at most is near it.
const NEAR: u64 = UNIT / 1_000_000;

listed_enum! {
    /// What an amount is worth behind its whole kuruş.
    pub enum Rest {
        JustBelow,
        Half,
        JustAbove,
    }
}

impl Rest {
    /// That of an amount at a discount factor, if it is a half or near it.
    pub fn of(amount: u64, factor: u64) -> Option<Self> {
        let worth = u128::from(amount) * u128::from(factor);
        let rest = (worth % u128::from(UNIT)) as u64;
        let found = match rest.cmp(&HALF) {
            Ordering::Less => Rest::JustBelow,
            Ordering::Equal => Rest::Half,
            Ordering::Greater => Rest::JustAbove,
        };
        (rest.abs_diff(HALF) <= NEAR).then_some(found)
    }

    /// An amount up to `most` with this rest at a discount factor, if there is
    /// one, often as near to the half as can be.
    pub fn draw_amount(self, draw: &mut Draw, factor: u64, most: u64) -> Option<u64> {
        let (divisor, multiplier) = divisor_of(factor);
        let furthest = NEAR / divisor;
        if !HALF.is_multiple_of(divisor) || (self != Rest::Half && furthest == 0) {
            return None;
        }
        let away = divisor * draw.edge(1..=furthest.max(1));
        let rest = match self {
            Rest::JustBelow => HALF - away,
            Rest::Half => HALF,
            Rest::JustAbove => HALF + away,
        };
        // amounts of one rest are a period apart
        let period = UNIT / divisor;
        let least = u128::from(rest / divisor) * u128::from(multiplier) % u128::from(period);
        let more = most.checked_sub(least as u64)? / period;
        Some(least as u64 + period * draw.edge(0..=more))
    }
}

/// The greatest common divisor of a factor and S, and what the factor is
/// multiplied by to leave it as its rest.
fn divisor_of(factor: u64) -> (u64, u64) {
    let unit = UNIT as i64;
    let (mut last, mut next) = ((unit, 0), (factor as i64, 1));
    while next.0 != 0 {
        let times = last.0 / next.0;
        (last, next) = (next, (last.0 - times * next.0, last.1 - times * next.1));
    }
    (last.0 as u64, last.1.rem_euclid(unit) as u64)
}

/// Rates at which small amounts are worth whole kuruş and a half in whole
/// years: what is left after one is 1/2, 5/8 or 25/32.
pub(crate) const HALVING_RATES: [i32; 3] = [1_000_000, 600_000, 280_000];

/// Rates move the value of as much by a few kuruş.
pub(crate) const MOST_SMALL: u64 = 2_000;

/// A payment of the curve on a day, bought or sold for as much today.
fn draw_payment(draw: &mut Draw, curve: &Curve, day: u64, nominal: u64) -> Record {
    Record {
        side: draw.pick(&[FIRST_SIDE, SECOND_SIDE]),
        ..payment(curve, day as u16, nominal)
    }
}

/// A small payment in a year or two: worth whole kuruş and a half, if that can
/// be, by the curve's own rates or by those that the first component moves them
/// to.
pub fn draw_half_payment(draw: &mut Draw, curve: &Curve) -> Record {
    let day = YEAR * draw.within(1..=2);
    let coefficient = draw.pick(&[0, 100]);
    let nodes = stressed_nodes(curve.nodes(), &[coefficient, 0, 0]);
    let factor = discount_factor(rate_on(&nodes, day), day);
    let any = draw.within(1..=MOST_SMALL);
    let half = Rest::Half.draw_amount(draw, factor, MOST_SMALL);
    draw_payment(draw, curve, day, half.unwrap_or(any))
}

/// How many amounts are drawn for one that is worth nearly a half.
const AMOUNTS: usize = 200;

/// A payment on any day, of an amount of any size, which by the curve's own
/// rates is worth whole kuruş and, as nearly as a few hundred amounts allow, a
/// half.
pub fn draw_payment_near_half(draw: &mut Draw, curve: &Curve) -> Record {
    let day = draw.within(1..=MAX_DAY);
    let factor = discount_factor(rate_on(curve.nodes(), day), day);
    let most = 10_u64.pow(draw.within(1..=12) as u32);
    let away = |amount: u64| {
        let worth = u128::from(amount) * u128::from(factor);
        ((worth % u128::from(UNIT)) as u64).abs_diff(HALF)
    };
    let exact = draw.pick(&Rest::ALL).draw_amount(draw, factor, most);
    let drawn = (0..AMOUNTS).map(|_| draw.within(1..=most));
    let nearest = drawn.min_by_key(|amount| away(*amount));
    let amount = exact.filter(|amount| *amount > 0).or(nearest);
    draw_payment(draw, curve, day, amount.expect("amounts are drawn"))
}

/// Whether an amount is worth whole kuruş and a half by these nodes.
pub fn is_half(nodes: &[Node], day: u64, amount: u128) -> bool {
    let factor = discount_factor(rate_on(nodes, day), day);
    Rest::of(amount as u64, factor) == Some(Rest::Half)
}

/// Which flows of whole kuruş and a half are behind what a report shows of a
/// curve.
#[derive(Clone, Copy, Debug, PartialEq, Eq, PartialOrd, Ord)]
pub struct HalfCase {
    /// At the rates of a worst loss that is not 0, or at the curve's own.
    of_worst_loss: bool,
    received: bool,
    paid: bool,
}

impl HalfCase {
    /// All that there are, the flows of one sign or of both.
    pub fn all() -> impl Iterator<Item = Self> {
        let signs = [(true, false), (false, true), (true, true)];
        let cases = signs.map(|signs| [(false, signs), (true, signs)]);
        let case = |(of_worst_loss, (received, paid))| HalfCase {
            of_worst_loss,
            received,
            paid,
        };
        cases.into_iter().flatten().map(case)
    }

    pub fn is_of_one_sign(&self) -> bool {
        self.received != self.paid
    }

    /// Those of some flows on a curve, of which this is shown.
    pub fn of(curve: &Curve, shown: &CurveFigures, flows: &[CashFlow]) -> Vec<Self> {
        let case = |of_worst_loss, nodes: &[Node]| {
            let mut halves = flows.to_vec();
            halves.retain(|flow| is_half(nodes, flow.day, flow.amount));
            HalfCase {
                of_worst_loss,
                received: halves.iter().any(|flow| flow.sign > 0),
                paid: halves.iter().any(|flow| flow.sign < 0),
            }
        };
        let mut cases = vec![case(false, curve.nodes())];
        if shown.worst_loss > 0 {
            let scenario = scenarios(curve)[shown.scenario as usize];
            cases.push(case(true, &stressed_nodes(curve.nodes(), &scenario)));
        }
        cases.retain(|case| case.received || case.paid);
        cases
    }
}
