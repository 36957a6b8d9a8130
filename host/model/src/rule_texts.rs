//! What the rules of a record say, where it is the same for every record.

pub const SECURITY: &str = "a pool repo in phase 1 has no security, every other trade has one";
pub const NO_SECURITY_CURVE: &str = "a trade without security has no security curve";

pub const LEGS: &str = "value day 2 falls after value day 1";
pub const TERM: &str = "the days from value day 1 to value day 2";
pub const SETTLED: &str = "where the first leg has settled, value day 2 is at most the term";
pub const OUTRIGHT_PAYMENTS: &str = "an outright's payments fall after value day 1";
pub const REPO_PAYMENTS: &str = "a repo's payments fall after value day 1";
pub const SETTLED_PAYMENTS: &str = "where the first leg has settled, payments fall after day 0";
pub const BOND_PAYMENTS: &str = "a quoted bond's payments fall after day 0";

pub const NO_SECOND_LEG: &str = "an outright has no value day 2, term or repo cash";
pub const NO_TERM: &str = "a quoted bond has no term";
pub const NO_ACCRUED: &str = "a repo has no accrued";
pub const NO_FIRST_LEG: &str = "where the first leg has settled, value day 1 is unused";
pub const NO_SECURITY: &str = "a trade without security has no first payment day or nominal";
pub const NO_COUPONS: &str = "only coupons have a period, payments and a coupon";
pub const NO_INDICES: &str = "only indexed coupons have indices";

pub const COUNTED_AHEAD: &str =
    "where both legs are ahead, payments are flows only after value day 1 and up to value day 2";
pub const COUNTED_SETTLED: &str =
    "where the first leg has settled, payments are flows only after value day 2";

pub const VALUATION_DAY: &str = "days of curves and trades are counted from the day of the book";
