//! Quotes drawn at random that lengthen a curve.

use crate::{bring_within_limit, draw_components, draw_security, Draw, Rest};
use seddolki_model::{
    bond_of, bond_value, discount_factor, rate_on, Curve, Node, Quote, Record, AMOUNTS, COUPONS,
    FIRST_SIDE, MAX_AMOUNT, MAX_COUPON, MAX_DAY, MAX_RATE, NODES, OUTRIGHT, PAYMENTS,
};

/// A quote for a curve with room for a node, if there is one; a book with
/// these curves accepts it then. The cash is what the bond is worth at some
/// rate, or is near it.
pub fn draw_quote(draw: &mut Draw, curves: &[Curve]) -> Quote {
    let with_room: Vec<Curve> = curves.iter().filter(|c| has_room(c)).copied().collect();
    let curve = match &with_room[..] {
        [] => draw.pick(curves),
        _ => draw.pick(&with_room),
    };
    let mut bond = draw_bond(draw, curves, &curve);
    let mut quote = Quote {
        curve: curve.id.into(),
        bond: bond_of(&bond),
        cash: 1,
        components: draw_components(draw),
    };
    if bond_value(&curve, &quote, MAX_RATE) > MAX_AMOUNT {
        bond.nominal = most_nominal(&bond);
        quote.bond = bond_of(&bond);
    }
    quote.cash = draw_cash(draw, &curve, &quote);
    quote
}

/// Whether one more node can stand behind the last.
fn has_room(curve: &Curve) -> bool {
    curve.node_count < *NODES.end() && u64::from(curve.last_node().day) < MAX_DAY
}

/// A purchase of a bond that pays after the curve's last node, or on the last
/// day of all if that is the node's.
fn draw_bond(draw: &mut Draw, curves: &[Curve], curve: &Curve) -> Record {
    let mut bond = Record {
        kind: OUTRIGHT,
        side: FIRST_SIDE,
        security: COUPONS,
        security_curve: curve.id,
        cash_curve: curve.id,
        price_or_rate: 1,
        ..Record::default()
    };
    let most_payments = draw.pick(&[1, 2, 4, 4, 12, 12, (*PAYMENTS.end()).into()]);
    draw_security(draw, &mut bond, 1..=MAX_DAY, most_payments);
    let latest = MAX_DAY - bond.payment_span();
    let after = u64::from(curve.last_node().day) + 1;
    let after = after.saturating_sub(bond.payment_span());
    bond.first_payment_day = draw.edge(after.clamp(1, latest)..=latest) as u16;
    bring_within_limit(&mut bond, curves);
    bond
}

/// With this nominal the payments sum to no more than a cash can be: a
/// coupon is at most the nominal.
fn most_nominal(bond: &Record) -> u64 {
    MAX_AMOUNT / (u64::from(bond.payments) + 1)
}

/// The bond's value at some rate, or near it, as far as some rate fits.
fn draw_cash(draw: &mut Draw, curve: &Curve, quote: &Quote) -> u64 {
    let value = |rate| bond_value(curve, quote, rate);
    let least = value(MAX_RATE).max(1);
    let most = value(0).min(MAX_AMOUNT);
    let cash = value(draw.edge(0..=MAX_RATE));
    let near = draw.within(0..=3);
    let cash = draw.pick(&[cash, cash, cash + near, cash.saturating_sub(near)]);
    cash.clamp(least, most)
}

/// A drawn quote, changed so that some payment is worth whole kuruş and a half
/// with the new node at some rate; the cash is what the bond is worth then, or
/// a kuruş less. None where that is no cash or no payment can be a half.
pub fn draw_half_quote(draw: &mut Draw, curves: &[Curve]) -> Option<Quote> {
    let quote = draw_quote(draw, curves);
    let curve = &curves[quote.curve - 1];
    let mut bond = quote.purchase();
    let rate = draw.within(0..=MAX_RATE);
    let node = Node {
        day: bond.last_payment_day() as u16,
        rate: rate as u32,
        ..Node::default()
    };
    let nodes = [curve.nodes(), &[node]].concat();
    let place = draw.place(bond.payments.into()) as u16;
    let day = u64::from(bond.first_payment_day + place * bond.period);
    let factor = discount_factor(rate_on(&nodes, day), day);
    // the payment is the nominal: the last without a coupon, or a coupon of as much
    let is_last = place + 1 == bond.payments;
    let (coupon, most) = match is_last {
        true => (0, MAX_AMOUNT),
        false => (MAX_COUPON, MAX_AMOUNT / 2),
    };
    bond.coupon = coupon;
    bond.nominal = Rest::Half.draw_amount(draw, factor, most)?;
    let bond = bond_of(&bond);
    let worth = bond_value(curve, &Quote { bond, ..quote }, rate);
    let cash = worth.saturating_sub(draw.within(0..=1));
    AMOUNTS.contains(&cash).then_some(Quote {
        bond,
        cash,
        ..quote
    })
}
