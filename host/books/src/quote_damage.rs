//! Quotes spoiled so that one ground answers.

use crate::listed_enum::listed_enum;
use crate::{bring_within_limit, wrong_numbers, Draw, Spoiled};
use seddolki_model::limits::*;
use seddolki_model::{bond_of, bond_value, quote_fault, Curve, Ground, Quote, Record};

listed_enum! {
    /// What of a quote is wrong.
    pub enum QuoteDamage {
        /// The book has no such curve.
        Curve,
        /// A day, the period or the payment count of the bond.
        Days,
        /// The coupon, the nominal or the term of the bond.
        Amounts,
        /// The last payment exceeds its limit.
        FlowLimit,
        /// A component is out of limits.
        Components,
        /// The cash is out of limits.
        Cash,
        /// The curve has all its nodes.
        FullCurve,
        /// The last payment is not after the last node.
        EarlyEnd,
        /// The bond is worth more at the highest rate.
        CashTooLow,
        /// The bond is worth less at rate 0.
        CashTooHigh,
    }
}

impl QuoteDamage {
    /// The ground that answers.
    pub fn ground(self) -> Ground {
        match self {
            QuoteDamage::Curve => Ground::Form,
            QuoteDamage::Days => Ground::Days,
            QuoteDamage::Amounts | QuoteDamage::Cash => Ground::Amounts,
            QuoteDamage::FlowLimit => Ground::FlowLimit,
            QuoteDamage::Components => Ground::Node,
            QuoteDamage::FullCurve | QuoteDamage::EarlyEnd => Ground::CurveEnd,
            QuoteDamage::CashTooLow | QuoteDamage::CashTooHigh => Ground::RateRange,
        }
    }

    /// What is wrong first with a quote for these curves, if anything is.
    pub fn of(quote: &Quote, curves: &[Curve]) -> Option<Self> {
        let fault = quote_fault(quote, curves)?;
        let curve = || &curves[quote.curve - 1];
        Some(match fault.ground {
            Ground::Amounts if fault.field == "cash" => QuoteDamage::Cash,
            Ground::CurveEnd if curve().node_count < *NODES.end() => QuoteDamage::EarlyEnd,
            Ground::RateRange if bond_value(curve(), quote, 0) < quote.cash => {
                QuoteDamage::CashTooHigh
            }
            ground => {
                let mut all = QuoteDamage::ALL.into_iter();
                all.find(|damage| damage.ground() == ground)?
            }
        })
    }
}

/// A quote spoiled, if it can be in a book with these curves. It may have been
/// spoiled before for something that is looked for later.
pub fn damage_quote(
    draw: &mut Draw,
    quote: &Quote,
    curves: &[Curve],
    damage: QuoteDamage,
) -> Option<Quote> {
    let mut spoiled = Spoiled::new(*quote);
    match damage {
        QuoteDamage::Curve => curve(&mut spoiled, curves),
        QuoteDamage::Days => days(&mut spoiled),
        QuoteDamage::Amounts => amounts(&mut spoiled),
        QuoteDamage::FlowLimit => flow_limit(&mut spoiled, curves),
        QuoteDamage::Components => components(&mut spoiled),
        QuoteDamage::Cash => spoiled.set_cash(&wrong_numbers(true, AMOUNTS)),
        QuoteDamage::FullCurve => full_curve(&mut spoiled, curves),
        QuoteDamage::EarlyEnd => early_end(draw, &mut spoiled, curves),
        QuoteDamage::CashTooLow => cash_too_low(&mut spoiled, curves),
        QuoteDamage::CashTooHigh => cash_too_high(&mut spoiled, curves),
    }
    spoiled.draw(draw)
}

impl Spoiled<Quote> {
    fn set_cash(&mut self, values: &[u64]) {
        self.set(values, |quote, cash| quote.cash = cash);
    }

    /// Changes the bond by its fields.
    fn change_bond(&mut self, change: impl Fn(&mut Record)) {
        let mut bond = self.whole.purchase();
        change(&mut bond);
        self.add(|quote| quote.bond = bond_of(&bond));
    }

    /// One form for each value that a field of the bond is set to.
    fn set_bond<T: Copy>(&mut self, values: &[T], change: impl Fn(&mut Record, T)) {
        for &value in values {
            self.change_bond(|bond| change(bond, value));
        }
    }

    /// The curve that the quote lengthens.
    fn curve<'a>(&self, curves: &'a [Curve]) -> &'a Curve {
        &curves[self.whole.curve - 1]
    }
}

/// Ids that the book lacks, some of them with the lower bytes of one it has.
fn curve(spoiled: &mut Spoiled<Quote>, curves: &[Curve]) {
    let (id, count) = (spoiled.whole.curve, curves.len());
    let none = [0, count + 1, id + (1 << 8), id + (1 << 32), usize::MAX];
    spoiled.set(&none, |quote, id| quote.curve = id);
}

fn days(spoiled: &mut Spoiled<Quote>) {
    let late = MAX_DAY as u16 + 1;
    spoiled.set_bond(&[0, late, u16::MAX], |b, day| b.first_payment_day = day);
    spoiled.set_bond(&wrong_numbers(true, PERIODS), |b, n| b.period = n as u16);
    spoiled.set_bond(&wrong_numbers(true, PAYMENTS), |b, n| b.payments = n as u16);
    spoiled.change_bond(|b| b.first_payment_day = late - b.payment_span() as u16);
}

fn amounts(spoiled: &mut Spoiled<Quote>) {
    spoiled.set_bond(&wrong_numbers(true, AMOUNTS), |b, n| b.nominal = n);
    spoiled.set_bond(&wrong_numbers(true, 0..=MAX_COUPON), |b, n| {
        b.coupon = n as u32
    });
    spoiled.set_bond(&wrong_numbers(false, TERMS), |b, n| b.term = n as u16);
}

/// Far above the limit, and the least above it.
fn flow_limit(spoiled: &mut Spoiled<Quote>, curves: &[Curve]) {
    let id = spoiled.curve(curves).id;
    let dear = |b: &mut Record| (b.nominal, b.coupon) = (MAX_AMOUNT, MAX_COUPON);
    spoiled.change_bond(dear);
    spoiled.change_bond(|b| (b.nominal, b.coupon) = (MAX_AMOUNT, 1));
    spoiled.change_bond(|b| {
        dear(b);
        (b.security_curve, b.cash_curve, b.price_or_rate) = (id, id, 1);
        bring_within_limit(b, curves);
        b.nominal += 1;
    });
}

fn components(spoiled: &mut Spoiled<Quote>) {
    let beyond = MAX_COMPONENT + 1;
    for component in 0..spoiled.whole.components.len() {
        let values = [beyond, -beyond, i32::MAX, i32::MIN];
        spoiled.set(&values, |quote, value| quote.components[component] = value);
    }
}

fn full_curve(spoiled: &mut Spoiled<Quote>, curves: &[Curve]) {
    let full = curves.iter().filter(|c| c.node_count == *NODES.end());
    for curve in full {
        spoiled.add(|quote| quote.curve = curve.id.into());
    }
}

/// The last payment on the last node's day or before it, with all payments if
/// there is time for them, or with one.
fn early_end(draw: &mut Draw, spoiled: &mut Spoiled<Quote>, curves: &[Curve]) {
    let last = spoiled.curve(curves).last_node().day.into();
    let day = draw.within(1..=last);
    let span = spoiled.whole.purchase().payment_span();
    for end in [last, day] {
        if end > span {
            spoiled.change_bond(|b| b.first_payment_day = (end - span) as u16);
        }
        spoiled.change_bond(|b| (b.first_payment_day, b.payments) = (end as u16, 1));
    }
}

/// Just below what the bond is worth at the highest rate, and far below.
fn cash_too_low(spoiled: &mut Spoiled<Quote>, curves: &[Curve]) {
    let value = bond_value(spoiled.curve(curves), &spoiled.whole, MAX_RATE);
    let most = value.saturating_sub(1).min(MAX_AMOUNT);
    if most >= 1 {
        spoiled.set_cash(&[most, most, 1]);
    }
}

/// Just above what the bond is worth at rate 0, and far above.
fn cash_too_high(spoiled: &mut Spoiled<Quote>, curves: &[Curve]) {
    let value = bond_value(spoiled.curve(curves), &spoiled.whole, 0);
    if value < MAX_AMOUNT {
        spoiled.set_cash(&[value + 1, value + 1, MAX_AMOUNT]);
    }
}
