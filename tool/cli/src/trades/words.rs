//! Trades in plain words.

use crate::trades::TermPayments;
use seddolki::Record;
use seddolki_format::record::{COUPONS, FIRST_SIDE, INDEXED_COUPONS, POOL, SINGLE_PAYMENT};
use seddolki_format::text::count;
use seddolki_text::decimal::{format as decimal, MONEY, PERCENT};

fn money(amount: u64) -> String {
    decimal(amount, MONEY)
}

fn percent(rate: u32) -> String {
    decimal(rate, PERCENT) + "%"
}

/// A day, or another whole number.
fn day(day: impl Into<i128>) -> String {
    decimal(day, 0)
}

/// A trade in one sentence.
pub fn trade(record: &Record) -> String {
    let inside = inside_term(record).map(|words| format!(", {words}"));
    agreed(record) + &inside.unwrap_or_default()
}

/// What was agreed: the trade without the payments inside its term.
pub fn agreed(record: &Record) -> String {
    match record.is_repo() {
        true => repo(record),
        false => outright(record),
    }
}

fn outright(record: &Record) -> String {
    let verb = match record.side {
        FIRST_SIDE => "buys",
        _ => "sells",
    };
    let (price, accrued) = (percent(record.price_or_rate), percent(record.accrued));
    let (security, day) = (security(record), day(record.value_day_1));
    format!("{verb} {security}, at {price} clean and {accrued} accrued, value day {day}")
}

fn repo(record: &Record) -> String {
    let member = match record.side {
        FIRST_SIDE => "repo member",
        _ => "reverse-repo member",
    };
    let kind = match record.kind {
        POOL => "pool",
        _ => "specified",
    };
    let [first, second] = [record.value_day_1, record.value_day_2].map(day);
    let days = match record.first_leg_settled() {
        true => format!("first leg settled, second leg on day {second}"),
        false => format!("from day {first} to day {second}"),
    };
    let against = match record.has_security() {
        true => format!(", against {}", security(record)),
        false => String::new(),
    };
    let (cash, rate) = (money(record.repo_cash), percent(record.price_or_rate));
    let (phase, term) = (record.phase, count(record.term.into(), "day"));
    format!("{member} in a {kind} repo, phase {phase}: cash {cash} at {rate} for {term}, {days}{against}")
}

/// What the security of a trade pays.
pub fn security(record: &Record) -> String {
    let (nominal, first) = (money(record.nominal), day(record.first_payment_day));
    let coupons = || {
        let (coupons, rate) = (
            count(record.payments.into(), "coupon"),
            percent(record.coupon),
        );
        let period = count(record.period.into(), "day");
        format!("{nominal} nominal with {coupons} of {rate} each {period} from day {first}")
    };
    match record.security {
        SINGLE_PAYMENT => format!("{nominal} paid on day {first}"),
        COUPONS => coupons(),
        INDEXED_COUPONS => {
            let [index, issued] = [record.settlement_index, record.issue_index].map(day);
            format!("{}, index {index} over {issued}", coupons())
        }
        _ => String::from("no security"),
    }
}

/// The payments inside a repo's term, if there are any, and how many come
/// after it.
pub fn inside_term(record: &Record) -> Option<String> {
    let TermPayments { inside, after } = TermPayments::of(record)?;
    let (first, last) = (*inside.first()?, *inside.last()?);
    let days = match day(first) {
        only if first == last => format!("on day {only}"),
        first => format!("from day {first} to day {}", day(last)),
    };
    let settled = match inside.len() {
        _ if !record.first_leg_settled() => "",
        1 => ", which no longer counts",
        _ => ", which no longer count",
    };
    let payments = count(inside.len(), "payment");
    let after = match after {
        0 => "none".into(),
        after => decimal(after as i128, 0),
    };
    Some(format!(
        "{payments} inside the term, {days}{settled}, and {after} after it"
    ))
}
