//! The flows of a curve one by one, each with its present value. The value is
//! the engine's; flow and rate are the second implementation's, and what does
//! not add up to the engine's figures of the curve is never shown.

use crate::ended::Ended;
use crate::figures::unlike;
use crate::files::BookFile;
use crate::trades::{flows_of, FlowKind};
use seddolki::{present_value, Report};
use seddolki_format::block::Curve;
use seddolki_model::curve::rate_on;
use seddolki_model::flows::CashFlow;

/// A flow and what it is worth.
pub struct FlowValue {
    /// The trade's.
    pub position: usize,
    pub kind: FlowKind,
    pub flow: CashFlow,
    /// The curve's, on the flow's day.
    pub rate: u64,
    /// By the flow's sign.
    pub present_value: i64,
    pub tolerance: u64,
}

/// The flows of a curve by day, those of one day by their trades' positions.
pub fn flow_values(
    file: &BookFile,
    report: &Report,
    curve: &Curve,
) -> Result<Vec<FlowValue>, Ended> {
    let mut values = vec![];
    for (position, record) in file.parts.trades.iter().enumerate() {
        let own = flows_of(record).into_iter();
        for (kind, flow) in own.filter(|(_, flow)| flow.curve == curve.id) {
            let rate = rate_on(curve.nodes(), flow.day);
            let answer = present_value(flow.amount as u64, rate, flow.day);
            let worth = file.answered(answer)?;
            values.push(FlowValue {
                position,
                kind,
                flow,
                rate,
                present_value: flow.sign * worth.value as i64,
                tolerance: worth.tolerance,
            });
        }
    }
    values.sort_by_key(|value| value.flow.day);
    if !add_up(&values, report, curve) {
        return Err(unlike(file, curve));
    }
    Ok(values)
}

/// Whether values and tolerances are together those of the report.
fn add_up(values: &[FlowValue], report: &Report, curve: &Curve) -> bool {
    let figures = report.curves[usize::from(curve.id) - 1];
    let base: i64 = values.iter().map(|value| value.present_value).sum();
    let tolerance: u64 = values.iter().map(|value| value.tolerance).sum();
    (base, tolerance) == (figures.base, figures.tolerance)
}
