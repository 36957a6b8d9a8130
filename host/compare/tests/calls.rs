//! Any call on any book, whole or spoiled.

use seddolki_books::{draw_case, Call, Case, Tally, ENTRIES};
use seddolki_compare::{assert_alike, calls, is_whole, Seeds};
use seddolki_model::{Ground, RECORD};

/// Bounds the time of a margin.
const WORK: usize = 1_000;

/// What a refused call leaves of a case.
fn left_by_refusal(mut case: Case) -> Case {
    match &mut case.call {
        Call::Read { record, .. } => *record = [0; RECORD],
        Call::PresentValue { tolerance, .. } => *tolerance = 0,
        _ => {}
    }
    case
}

#[test]
fn calls_are_alike_and_each_answers_every_ground_of_its_own_and_no_other() {
    let seeds = Seeds::of_this_run();
    let mut answered = Tally::default();
    for number in 0..calls() {
        let case = draw_case(&mut seeds.draw(number), WORK);
        let outcome = assert_alike(&case, number);
        let ground = Ground::from_number(outcome.answer.number);
        answered.add((case.call.name(), ground));
        if ground.is_some() {
            assert!(outcome.after == left_by_refusal(case), "case {number}");
        }
    }
    let all = ENTRIES.iter().flat_map(|entry| {
        let grounds = entry.grounds().into_iter().map(Some);
        grounds.chain([None]).map(|ground| (entry.name, ground))
    });
    answered.assert_all(all, is_whole().into());
}
