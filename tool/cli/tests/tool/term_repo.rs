//! A repo whose security pays inside the term.

use super::{changed, Desk, DONE};

/// From day 0 to day 730, against coupons of 100.00 on days 365, 730 and 1,095,
/// the last with the nominal. A year at 25% is worth four fifths, at 100% a
/// half.
pub const REPO: [&str; 16] = [
    "kind=specified repo",
    "side=repo",
    "phase=1",
    "cash_curve=1",
    "security=coupons",
    "security_curve=1",
    "nominal=1000",
    "value_day_1=0",
    "value_day_2=730",
    "term=730",
    "first_payment_day=365",
    "period=365",
    "payments=3",
    "coupon=10",
    "repo_cash=1000",
    "repo_rate=0",
];

pub const POOL: [&str; 2] = ["kind=pool repo", "phase=2"];
pub const SETTLED: [&str; 2] = ["phase=2", "value_day_1="];
pub const SETTLED_POOL: [&str; 3] = ["kind=pool repo", "phase=3", "value_day_1="];

/// The security ends on value day 2.
pub const ENDS: [&str; 1] = ["payments=2"];

/// One payment, of the nominal.
pub const BILL: [&str; 4] = ["security=single payment", "period=", "payments=", "coupon="];

/// The repo with these changes, the later ones last.
pub fn with(changes: &[&[&str]]) -> Vec<String> {
    let repo = REPO.map(str::to_owned).to_vec();
    changes.iter().fold(repo, |repo, more| changed(&repo, more))
}

/// A desk whose book has one trade, the repo with these changes.
pub fn desk(changes: &[&[&str]]) -> Desk {
    let desk = Desk::with("empty.book");
    let run = desk.append("empty.book", &with(changes));
    assert_eq!((run.status, run.err.as_str()), (DONE, ""), "{changes:?}");
    desk
}
