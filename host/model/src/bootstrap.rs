//! A curve lengthened by what a coupon bond costs. The quotes have passed
//! grounds 8 to 12.

use crate::discount::present_value;
use crate::{discount_factor, payments, rate_on, smallest, Curve, Node, Quote, MAX_RATE};

/// The node on the bond's last payment day, at a rate.
fn node_at(quote: &Quote, rate: u64) -> Node {
    Node {
        day: quote.purchase().last_payment_day() as u16,
        rate: rate as u32,
        components: quote.components,
    }
}

/// The bond's summed present value on the lengthened curve, at a rate of the
/// new node.
pub fn bond_value(curve: &Curve, quote: &Quote, rate: u64) -> u64 {
    let nodes = [curve.nodes(), &[node_at(quote, rate)]].concat();
    let value = |(day, amount)| {
        let factor = discount_factor(rate_on(&nodes, day), day);
        present_value(amount, factor)
    };
    payments(&quote.purchase()).into_iter().map(value).sum()
}

/// The new node, at the smallest rate that makes the bond worth at most the
/// cash. The quote has passed grounds 17 and 18; the value never rises with
/// the rate.
pub fn new_node(curve: &Curve, quote: &Quote) -> Node {
    let rate = smallest(MAX_RATE, |rate| {
        bond_value(curve, quote, rate) <= quote.cash
    });
    node_at(quote, rate)
}
