//! The days on which a drawn repo's security pays.

use crate::listed_enum::listed_enum;
use crate::Draw;
use seddolki_model::{Record, MAX_DAY, PERIODS};
use std::ops::RangeInclusive;

listed_enum! {
    /// Where the payments of a repo's security fall.
    pub enum PaymentDays {
        /// Behind the term alone.
        Behind,
        /// Inside the term alone, where a day of it is left.
        Inside,
        /// From inside the term on, behind it too if they are many enough.
        Across,
        /// On any days, one of them if it can be on the first or the last day
        /// inside the term or on the first behind it.
        AtAnEnd,
    }
}

impl PaymentDays {
    /// The days that the payments of a trade's security are drawn from.
    pub(crate) fn days(self, record: &Record) -> RangeInclusive<u64> {
        let (first, last) = ends(record);
        match self {
            PaymentDays::Behind if record.is_repo() => last + 1..=MAX_DAY,
            PaymentDays::Inside if record.in_term(first) => first..=last,
            _ => first..=MAX_DAY,
        }
    }

    /// Moves the payments of a trade's security, if it is a repo's and they
    /// were drawn from more days than they are to fall on.
    pub(crate) fn arrange(self, draw: &mut Draw, record: &mut Record) {
        match self {
            PaymentDays::Across if record.is_repo() => begin_inside(draw, record),
            PaymentDays::AtAnEnd if record.is_repo() => move_to_an_end(draw, record),
            _ => {}
        }
    }
}

/// The first day on which the security may pay, and value day 2.
fn ends(record: &Record) -> (u64, u64) {
    let first = u64::from(record.payments_after()) + 1;
    (first, record.value_day_2.into())
}

/// Lets the payments begin inside the term, if a day of it is left, with a
/// period by which some of them, or all, fit in.
fn begin_inside(draw: &mut Draw, repo: &mut Record) {
    let (first, last) = ends(repo);
    if !repo.in_term(first) {
        return;
    }
    if repo.has_coupons() {
        let inside = draw.within(1..=repo.payments.into());
        let others = u64::from(repo.payments) - 1;
        let longest = (MAX_DAY - first).checked_div(others).unwrap_or(MAX_DAY);
        let longest = longest.min((*PERIODS.end()).into());
        let period = (last - first) / inside;
        repo.period = period.min(longest).max(1) as u16;
    }
    let latest = last.min(MAX_DAY - repo.payment_span());
    repo.first_payment_day = draw.edge(first..=latest) as u16;
}

/// Moves the payments, nearer together if need be, so that the first, the
/// last or another one falls where the term begins or ends; not where none
/// can.
fn move_to_an_end(draw: &mut Draw, repo: &mut Record) {
    let (first, last) = ends(repo);
    let end = draw.pick(&[first, last, last + 1]);
    let others = u64::from(repo.payments).saturating_sub(1);
    let any = draw.within(0..=others);
    let before = draw.pick(&[0, any, others]);
    let room = end.saturating_sub(first);
    let longest = room.checked_div(before).unwrap_or(MAX_DAY);
    let period = longest.min(repo.period.into());
    let has_room = end >= first && before <= room;
    if has_room && end + (others - before) * period <= MAX_DAY {
        repo.period = period as u16;
        repo.first_payment_day = (end - before * period) as u16;
    }
}
