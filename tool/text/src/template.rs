//! Files that a new user starts from. The trades fit the curves.

/// A file of two curves, with comments.
pub const CURVES: &str = include_str!("../templates/curves.txt");

/// A file with trades of each kind, phase and security, none like another.
pub const TRADES: &str = include_str!("../templates/trades.csv");
