//! Books whose scenarios are hard to tell apart.

use seddolki_books::{
    assemble, draw_near_ties, near_tie_book, zero_component_book, Draw, NearTies,
};
use seddolki_model::{accept, scenarios, stressed_nodes, valuation, Book};
use std::collections::BTreeMap;

const WORK: usize = 3_000;

/// Losses that differ by so many kuruş are near.
const NEAR: i64 = 20;

/// Scenarios near the worst, and how many differ in their stressed nodes.
fn rivals(book: &Book) -> Vec<(usize, usize)> {
    let of_curve = |curve| {
        let valuation = valuation(curve, &book.flows_on(curve));
        let worst = valuation.worst_loss();
        let all = scenarios(curve);
        let near = all.iter().zip(&valuation.losses);
        let near: Vec<Vec<u32>> = near
            .filter(|(_, &loss)| worst - loss <= NEAR)
            .map(|(scenario, _)| stressed_nodes(curve.nodes(), scenario))
            .map(|nodes| nodes.iter().map(|node| node.rate).collect())
            .collect();
        let mut distinct = near.clone();
        distinct.sort();
        distinct.dedup();
        (near.len(), distinct.len())
    };
    let with_flows = book.curves.iter().filter(|c| !book.flows_on(c).is_empty());
    with_flows.map(of_curve).collect()
}

#[test]
fn books_of_each_kind_are_accepted_and_have_near_ties() {
    let mut tied: BTreeMap<NearTies, (usize, usize)> = BTreeMap::new();
    for (ties, seed) in NearTies::ALL
        .into_iter()
        .flat_map(|t| (0..40).map(move |s| (t, s)))
    {
        let book = draw_near_ties(&mut Draw::new(seed), ties, WORK);
        let bytes = assemble(&book);
        assert!(accept(&bytes, bytes.len()).is_ok(), "{ties:?} {seed}");
        for (near, distinct) in rivals(&book) {
            let (curves, unlike) = tied.entry(ties).or_default();
            *curves += usize::from(near > 1);
            *unlike += usize::from(distinct > 1);
        }
    }
    println!("{tied:?}");
    for ties in NearTies::ALL {
        let (curves, unlike) = tied[&ties];
        assert!(curves >= 20, "{ties:?}: {curves} curves have ties");
        assert!(unlike >= 5, "{ties:?}: in {unlike} their nodes differ");
    }
}

#[test]
fn every_scenario_of_the_near_tie_book_is_a_rival_with_its_own_nodes() {
    assert_eq!(rivals(&near_tie_book()), [(343, 343); 3]);
}

#[test]
fn each_scenario_of_the_zero_component_book_has_six_like_it() {
    for (near, distinct) in rivals(&zero_component_book()) {
        assert_eq!(near, 7 * distinct);
    }
}
