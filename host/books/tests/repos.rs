//! Drawn repos: they reach every case of payments inside and behind a term,
//! and each case is answered and counted as document 02 has it.

use seddolki_books::{draw_curves, draw_record, draw_repo, Draw, Place, RepoCase, Tally};
use seddolki_model::{
    accept_record, cash_flows, payments, second_leg, CashFlow, Record, FIRST_SIDE, POOL,
};
use std::collections::BTreeMap;

const REPOS: u64 = 40_000;

#[test]
fn drawn_repos_reach_every_case_and_are_answered_by_it() {
    let mut reached = Tally::default();
    for seed in 0..REPOS {
        let mut draw = Draw::new(seed);
        let curves = draw_curves(&mut draw);
        let repo = draw_repo(&mut draw, &curves);
        let answer = accept_record(&repo, &curves).err();
        for case in RepoCase::of(&repo) {
            assert_eq!(answer, case.ground(), "seed {seed}: {case:?} of {repo:?}");
            reached.add(case);
        }
    }
    reached.assert_all(RepoCase::all(), 10);
}

/// Accepted repos with a security.
fn accepted_repos() -> impl Iterator<Item = Record> {
    (0..REPOS).filter_map(|seed| {
        let mut draw = Draw::new(seed);
        let curves = draw_curves(&mut draw);
        let record = draw_record(&mut draw, &curves, 120);
        (record.is_repo() && record.has_security()).then_some(record)
    })
}

/// What a trade has behind its legs.
fn paid(repo: &Record) -> Vec<CashFlow> {
    let legs = if repo.first_leg_settled() { 1 } else { 2 };
    cash_flows(repo).split_off(legs)
}

#[test]
fn a_payment_is_a_flow_where_its_place_counts_and_nowhere_else() {
    let mut counted: BTreeMap<(Place, bool), u64> = BTreeMap::new();
    for repo in accepted_repos() {
        let Some(case) = RepoCase::of(&repo).next() else {
            continue;
        };
        if cash_flows(&repo).is_empty() {
            assert_eq!((repo.kind, repo.phase, repo.side), (POOL, 3, 2));
            continue;
        }
        let mut due = vec![];
        for (day, amount) in payments(&repo) {
            let place = Place::of(&repo, day);
            let counts = case.counts(place);
            *counted.entry((place, counts)).or_default() += 1;
            due.extend(counts.then_some((day, amount)));
        }
        let member = repo.side == FIRST_SIDE;
        let sign = if member == repo.first_leg_settled() {
            1
        } else {
            -1
        };
        let found = paid(&repo);
        assert!(found
            .iter()
            .all(|f| (f.curve, f.sign) == (repo.security_curve, sign)));
        let found: Vec<_> = found.iter().map(|f| (f.day, f.amount)).collect();
        assert_eq!(found, due, "{repo:?}");
    }
    println!("{counted:?}");
    assert_eq!(counted.len(), 2 * Place::ALL.len());
    assert!(counted.values().all(|&count| count >= 200), "{counted:?}");
}

/// The flows of document 01, before payments inside a term were allowed.
fn flows_of_document_01(repo: &Record) -> Vec<CashFlow> {
    let sign = if repo.side == FIRST_SIDE { 1 } else { -1 };
    let flow = |curve, day: u64, amount, sign| CashFlow {
        curve,
        day,
        amount,
        sign,
    };
    let cash = |day: u16, amount, sign| flow(repo.cash_curve, day.into(), amount, sign);
    let back = second_leg(repo.repo_cash, repo.price_or_rate, repo.term);
    let back = cash(repo.value_day_2, back, -sign);
    match (repo.kind, repo.phase, repo.side) {
        (POOL, 3, 2) => vec![],
        _ if repo.first_leg_settled() => {
            let paid = |(day, amount)| flow(repo.security_curve, day, amount, sign);
            let payments = payments(repo).into_iter().map(paid);
            std::iter::once(back).chain(payments).collect()
        }
        _ => vec![cash(repo.value_day_1, repo.repo_cash.into(), sign), back],
    }
}

#[test]
fn repos_that_pay_behind_their_terms_alone_have_the_flows_of_document_01() {
    let mut forms: BTreeMap<_, u64> = BTreeMap::new();
    let behind = |repo: &Record| repo.first_payment_day > repo.value_day_2;
    for repo in accepted_repos().filter(behind) {
        assert_eq!(cash_flows(&repo), flows_of_document_01(&repo), "{repo:?}");
        let form = (repo.kind, repo.phase, repo.side, repo.security);
        *forms.entry(form).or_default() += 1;
    }
    println!("{forms:?}");
    assert_eq!(forms.len(), 8 * 3);
    assert!(forms.values().all(|&count| count >= 100), "{forms:?}");
}
