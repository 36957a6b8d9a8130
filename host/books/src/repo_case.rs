//! What the payments of a repo's security come to.

use crate::forms;
use crate::listed_enum::listed_enum;
use seddolki_model::{
    payments, Ground, Record, MAX_AMOUNT, POOL, SECOND_SIDE, SINGLE_PAYMENT, SPECIFIED,
};
use std::collections::BTreeSet;

listed_enum! {
    /// Where a payment falls that does not fall too early.
    pub enum Place {
        /// The first day inside the term, if that is not the last.
        FirstDay,
        /// Between the first day and the last.
        Between,
        /// Value day 2, the last day inside the term.
        LastDay,
        /// The day after value day 2.
        DayAfter,
        /// Later.
        Later,
    }
}

impl Place {
    /// That of a day in a repo.
    pub fn of(repo: &Record, day: u64) -> Self {
        let first = u64::from(repo.payments_after()) + 1;
        let last = u64::from(repo.value_day_2);
        match day {
            _ if day == last => Place::LastDay,
            _ if day == last + 1 => Place::DayAfter,
            _ if day > last => Place::Later,
            _ if day == first => Place::FirstDay,
            _ => Place::Between,
        }
    }

    fn is_inside(self) -> bool {
        self <= Place::LastDay
    }
}

/// What is seen of the payments.
#[derive(Clone, Copy, Debug, PartialEq, Eq, PartialOrd, Ord)]
pub enum Seen {
    /// The first falls on value day 1 or before, or on day 0 where that is
    /// unused.
    TooEarly,
    /// One falls there that is not the last.
    Pays(Place),
    /// The last falls there, with the nominal.
    Ends(Place),
    /// Two at least fall inside the term, and two at least behind it.
    Straddles,
    /// The last falls there, and it alone exceeds what a flow may be.
    EndsAboveLimit(Place),
}

impl Seen {
    /// All that can be seen of a security.
    fn all(security: u8) -> Vec<Self> {
        let mut all = vec![Self::TooEarly];
        all.extend(Place::ALL.map(Self::Ends));
        if security != SINGLE_PAYMENT {
            all.push(Self::Straddles);
            all.extend(Place::ALL.map(Self::Pays));
            all.extend(Place::ALL.map(Self::EndsAboveLimit));
        }
        all
    }

    /// All that is seen of a repo, the rest of which is whole; nothing where
    /// more than one payment exceeds what a flow may be.
    fn of(repo: &Record) -> BTreeSet<Self> {
        if repo.first_payment_day <= repo.payments_after() {
            return [Self::TooEarly].into();
        }
        let payments = payments(repo);
        let above = payments.iter().filter(|paid| paid.1 > MAX_AMOUNT.into());
        let places: Vec<Place> = payments.iter().map(|p| Place::of(repo, p.0)).collect();
        match (above.count(), &places[..]) {
            (0, [before @ .., end]) => {
                let mut seen: BTreeSet<Self> = before.iter().copied().map(Self::Pays).collect();
                seen.insert(Self::Ends(*end));
                seen.extend(straddle(&places).then_some(Self::Straddles));
                seen
            }
            (1, [.., end]) => [Self::EndsAboveLimit(*end)].into(),
            _ => BTreeSet::new(),
        }
    }
}

fn straddle(places: &[Place]) -> bool {
    let inside = places.iter().filter(|place| place.is_inside()).count();
    inside >= 2 && places.len() - inside >= 2
}

/// A form of repo with a security, and what is seen of its payments.
#[derive(Clone, Copy, Debug, PartialEq, Eq, PartialOrd, Ord)]
pub struct RepoCase {
    kind: u8,
    phase: u8,
    side: u8,
    security: u8,
    seen: Seen,
}

impl RepoCase {
    /// All that there are.
    pub fn all() -> impl Iterator<Item = Self> {
        let repos = forms().filter(|form| form.is_repo() && form.has_security());
        repos.flat_map(|repo| {
            let all = Seen::all(repo.security).into_iter();
            all.map(move |seen| Self::new(&repo, seen))
        })
    }

    /// Those of a repo with a security, the rest of which is whole.
    pub fn of(repo: &Record) -> impl Iterator<Item = Self> + '_ {
        let seen = Seen::of(repo).into_iter();
        seen.map(|seen| Self::new(repo, seen))
    }

    fn new(repo: &Record, seen: Seen) -> Self {
        RepoCase {
            kind: repo.kind,
            phase: repo.phase,
            side: repo.side,
            security: repo.security,
            seen,
        }
    }

    /// Whether a payment there is a flow of the trade.
    pub fn counts(&self, place: Place) -> bool {
        match (self.kind, self.phase, self.side) {
            (POOL, 2, _) | (SPECIFIED, 1, _) => place.is_inside(),
            (POOL, 3, SECOND_SIDE) => false,
            _ => !place.is_inside(),
        }
    }

    /// The ground that refuses the repo, if one is to.
    pub fn ground(&self) -> Option<Ground> {
        match self.seen {
            Seen::TooEarly => Some(Ground::Days),
            Seen::EndsAboveLimit(place) if self.counts(place) => Some(Ground::FlowLimit),
            _ => None,
        }
    }
}
