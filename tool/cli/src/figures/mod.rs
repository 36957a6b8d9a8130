//! Figures that are shown of a curve.

mod curves;
mod flow_values;
mod ladder;
mod lengthened;
mod losses;
mod node_table;

pub use curves::{chosen_curves, curve, curve_cells};
pub use flow_values::flow_values;
pub use ladder::{add_flow, chart_nodes, ladder};
pub use lengthened::Lengthened;
pub use losses::{unlike, valued, CurveLosses};
pub use node_table::node_table;
