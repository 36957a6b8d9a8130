//! What the cash flows of a trade are.

use seddolki::Record;
use seddolki_model::flows::{named_flows, CashFlow, Leg};

/// Kinds are listed in this order.
#[derive(Clone, Copy, Debug, PartialEq, Eq, PartialOrd, Ord)]
pub enum FlowKind {
    SettlementCash,
    FirstLeg,
    SecondLeg,
    PaymentInsideTerm,
    Payment,
}

impl FlowKind {
    fn of(record: &Record, leg: Leg, day: u64) -> Self {
        match leg {
            Leg::First if record.is_repo() => FlowKind::FirstLeg,
            Leg::First => FlowKind::SettlementCash,
            Leg::Second => FlowKind::SecondLeg,
            Leg::Payment if record.in_term(day) => FlowKind::PaymentInsideTerm,
            Leg::Payment => FlowKind::Payment,
        }
    }

    /// A name that fits a list.
    pub fn name(self) -> &'static str {
        match self {
            FlowKind::SettlementCash => "settlement cash",
            FlowKind::FirstLeg => "first leg",
            FlowKind::SecondLeg => "second leg",
            FlowKind::PaymentInsideTerm => "payment inside the term",
            FlowKind::Payment => "payment",
        }
    }

    /// What it is, of one flow.
    pub fn in_words(self) -> &'static str {
        match self {
            FlowKind::SettlementCash => "settlement cash",
            FlowKind::FirstLeg => "repo cash, first leg",
            FlowKind::SecondLeg => "repo cash and interest less withholding, second leg",
            FlowKind::PaymentInsideTerm => "payment of the security inside the term",
            FlowKind::Payment => "payment of the security",
        }
    }
}

/// The flows of a trade by day, each with what it is.
pub fn flows_of(record: &Record) -> Vec<(FlowKind, CashFlow)> {
    let flows = named_flows(record).into_iter();
    let kind = |(leg, flow): (Leg, CashFlow)| (FlowKind::of(record, leg, flow.day), flow);
    let mut flows: Vec<(FlowKind, CashFlow)> = flows.map(kind).collect();
    flows.sort_by_key(|(_, flow)| flow.day);
    flows
}

/// A flow's amount by its sign.
pub fn signed(flow: &CashFlow) -> i128 {
    i128::from(flow.sign) * flow.amount as i128
}
