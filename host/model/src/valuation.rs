//! The base value and the losses of a curve, by any way of pricing.

use crate::{rate_on, scenarios, stressed_nodes, CashFlow, Curve, Node};

/// A curve's base value, and its loss in each scenario of its list.
#[derive(Clone, Debug, PartialEq, Eq)]
pub struct Valuation {
    /// The sum of the flows' values, by their signs.
    pub base: i64,
    /// Base less stressed value, scenario by scenario.
    pub losses: Vec<i64>,
}

impl Valuation {
    /// Prices a flow, without its sign, at a rate.
    pub fn new(
        curve: &Curve,
        flows: &[CashFlow],
        mut price: impl FnMut(&CashFlow, u64) -> u64,
    ) -> Self {
        let mut value = |nodes: &[Node]| -> i64 {
            let signed = |flow: &CashFlow| {
                let rate = rate_on(nodes, flow.day);
                flow.sign * price(flow, rate) as i64
            };
            flows.iter().map(signed).sum()
        };
        let base = value(curve.nodes());
        let losses = scenarios(curve)
            .iter()
            .map(|scenario| base - value(&stressed_nodes(curve.nodes(), scenario)))
            .collect();
        Valuation { base, losses }
    }

    /// The largest loss.
    pub fn worst_loss(&self) -> i64 {
        self.losses.iter().copied().max().unwrap_or(0)
    }

    /// The first scenario with the worst loss.
    pub fn worst_scenario(&self) -> usize {
        let worst = self.worst_loss();
        let first = self.losses.iter().position(|&loss| loss == worst);
        first.unwrap_or(0)
    }
}
