//! The losses of a curve, scenario by scenario and trade by trade. The
//! second implementation works them out; a worst loss that is not the
//! engine's is never shown.

use crate::ended::Ended;
use crate::files::BookFile;
use crate::parallel::on_all_cores;
use seddolki::CurveFigures;
use seddolki_format::block::{Curve, Node};
use seddolki_model::curve::rate_on;
use seddolki_model::discount::{present_value, Factors};
use seddolki_model::flows::{cash_flows, CashFlow};
use seddolki_model::margin::valuation;
use seddolki_model::scenario::{scenarios, stressed_nodes, Scenario};

/// A curve with its figures and the loss of each of its scenarios.
pub struct CurveLosses<'a> {
    pub curve: &'a Curve,
    pub figures: CurveFigures,
    pub scenarios: Vec<Scenario>,
    pub losses: Vec<i64>,
}

/// A trade's share in the base value and in the worst loss of a curve.
pub struct Share {
    pub position: usize,
    pub base: i64,
    pub loss: i64,
}

/// The curves valued, on all cores.
pub fn valued<'a>(file: &BookFile, curves: &[&'a Curve]) -> Result<Vec<CurveLosses<'a>>, Ended> {
    let report = file.margin()?;
    let one = |curve: &&'a Curve| {
        let figures = report.curves[usize::from(curve.id) - 1];
        let valuation = valuation(curve, &file.parts.flows_on(curve));
        let scenario = valuation.worst_scenario() as u32;
        let found = (valuation.base, valuation.worst_loss(), scenario);
        if found != (figures.base, figures.worst_loss, figures.scenario) {
            return Err(unlike(file, curve));
        }
        Ok(CurveLosses {
            curve,
            figures,
            scenarios: scenarios(curve),
            losses: valuation.losses,
        })
    };
    on_all_cores(curves, one).into_iter().collect()
}

/// Where the two implementations do not agree.
pub fn unlike(file: &BookFile, curve: &Curve) -> Ended {
    Ended::Failed(format!(
        "{}: curve {}: the second implementation has other figures than the engine",
        file.name, curve.id
    ))
}

impl CurveLosses<'_> {
    /// Each trade that has a flow on the curve, by its position.
    pub fn shares(&self, file: &BookFile) -> Vec<Share> {
        let worst = self.scenarios[self.figures.scenario as usize];
        let stressed = stressed_nodes(self.curve.nodes(), &worst);
        let mut factors = Factors::default();
        let mut shares = vec![];
        for (position, record) in file.parts.trades.iter().enumerate() {
            let own = |flow: &CashFlow| flow.curve == self.curve.id;
            let flows: Vec<CashFlow> = cash_flows(record).into_iter().filter(own).collect();
            if !flows.is_empty() {
                let base = value(&flows, self.curve.nodes(), &mut factors);
                let loss = base - value(&flows, &stressed, &mut factors);
                shares.push(Share {
                    position,
                    base,
                    loss,
                });
            }
        }
        shares
    }
}

fn value(flows: &[CashFlow], nodes: &[Node], factors: &mut Factors) -> i64 {
    let signed = |flow: &CashFlow| {
        let factor = factors.of(rate_on(nodes, flow.day), flow.day);
        flow.sign * present_value(flow.amount, factor) as i64
    };
    flows.iter().map(signed).sum()
}
