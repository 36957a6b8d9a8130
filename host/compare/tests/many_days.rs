//! Books with flows on many days of one curve: an engine that looks at fewer
//! days first must not rule out the worst scenario by them.

use seddolki_books::{assemble, days_with_net_amount, Extent, Tally};
use seddolki_compare::{assert_alike, books, is_whole, margin_case, report_of, Seeds};
use seddolki_model::{scenarios, stressed_nodes, CashFlow, Curve, Node, MAX_RATE};

/// What makes it hard to tell the worst scenario by fewer days.
#[derive(Clone, Copy, Debug, PartialEq, Eq, PartialOrd, Ord)]
enum Hard {
    /// Two nodes a day apart, with net amounts before and behind them.
    NodesADayApart,
    /// Two nodes half of all rates apart, with net amounts between them.
    SteepRates,
    /// In a scenario a node's rate comes to an end of its range.
    RatesAtAnEnd,
    /// In two scenarios every node has the same rate.
    LikeScenarios,
    /// The worst loss is below a thousandth of the flows.
    SmallLoss,
    /// There are thousands of flows.
    ManyFlows,
}

impl Hard {
    const ALL: [Hard; 6] = [
        Hard::NodesADayApart,
        Hard::SteepRates,
        Hard::RatesAtAnEnd,
        Hard::LikeScenarios,
        Hard::SmallLoss,
        Hard::ManyFlows,
    ];

    fn is_on(self, curve: &Curve, flows: &[CashFlow], worst_loss: i64) -> bool {
        match self {
            Hard::NodesADayApart | Hard::SteepRates => {
                let days = days_with_net_amount(flows);
                let mut pairs = curve.nodes().windows(2);
                pairs.any(|pair| self.is_between(&pair[0], &pair[1], &days))
            }
            Hard::RatesAtAnEnd => {
                let at_end = |rate: u32| rate == 0 || u64::from(rate) == MAX_RATE;
                let own = rates(curve.nodes()).into_iter();
                let comes = |rates: &Vec<u32>| {
                    own.clone()
                        .zip(rates)
                        .any(|(own, &rate)| !at_end(own) && at_end(rate))
                };
                stressed(curve).iter().any(comes)
            }
            Hard::LikeScenarios => {
                let mut unlike = stressed(curve);
                unlike.sort();
                unlike.dedup();
                unlike.len() < scenarios(curve).len()
            }
            Hard::SmallLoss => {
                let sum: u128 = flows.iter().map(|flow| flow.amount).sum();
                worst_loss as u128 * 1_000 < sum
            }
            Hard::ManyFlows => flows.len() > 2_000,
        }
    }

    fn is_between(self, one: &Node, next: &Node, days: &[u64]) -> bool {
        let before = |day: &u64| *day <= one.day.into();
        let behind = |day: &u64| *day >= next.day.into();
        if self == Hard::SteepRates {
            let steep = u64::from(one.rate.abs_diff(next.rate)) >= MAX_RATE / 2;
            return steep && days.iter().any(|day| !before(day) && !behind(day));
        }
        next.day - one.day == 1 && days.iter().any(before) && days.iter().any(behind)
    }
}

fn rates(nodes: &[Node]) -> Vec<u32> {
    nodes.iter().map(|node| node.rate).collect()
}

/// The nodes' rates in each scenario.
fn stressed(curve: &Curve) -> Vec<Vec<u32>> {
    let nodes = curve.nodes();
    let list = scenarios(curve).into_iter();
    list.map(|scenario| rates(&stressed_nodes(nodes, &scenario)))
        .collect()
}

#[test]
fn margins_are_the_same_where_flows_are_on_few_or_many_days() {
    let seeds = Seeds::of_this_run();
    let (mut extents, mut hard) = (Tally::default(), Tally::default());
    for (number, extent) in (0..books() / 10).zip(Extent::all().into_iter().cycle()) {
        let mut draw = seeds.draw(number);
        let book = extent.draw_book(&mut draw);
        let outcome = assert_alike(&margin_case(&mut draw, assemble(&book)), number);
        let worst_loss = report_of(&outcome).curves[0].worst_loss;
        let (curve, flows) = (&book.curves[0], book.flows_on(&book.curves[0]));
        extents.add(Extent::of(curve, &flows));
        let on = |kind: &Hard| kind.is_on(curve, &flows, worst_loss);
        Hard::ALL
            .into_iter()
            .filter(on)
            .for_each(|kind| hard.add(kind));
    }
    if is_whole() {
        extents.assert_all(Extent::all(), 16);
        hard.assert_all(Hard::ALL, 3);
    }
}
