//! One case, given to both.

use seddolki_books::{Case, Engine, Outcome};

/// Runs a case by both and compares the answers and every lent byte; panics,
/// naming the case by its number, where they differ.
pub fn assert_alike(case: &Case, number: u64) -> Outcome {
    let (proved, model) = (case.run(Engine::Proved), case.run(Engine::Model));
    if proved != model {
        panic!("case {number}: {}", difference(case, &proved, &model));
    }
    proved
}

fn difference(case: &Case, proved: &Outcome, model: &Outcome) -> String {
    let (name, lent, used) = (case.call.name(), case.lent.len(), case.used);
    let asked = format!("{name} on {lent} lent bytes, {used} used, day {}", case.day);
    if proved.answer != model.answer {
        let (proved, model) = (proved.answer, model.answer);
        return format!("{asked}: the engine answers {proved:?}, the model {model:?}");
    }
    if proved.after.lent == model.after.lent {
        return format!("{asked}: what is lent beside the book differs afterwards");
    }
    let mut pairs = proved.after.lent.iter().zip(&model.after.lent);
    let first = pairs.position(|(proved, model)| proved != model);
    format!("{asked}: the book differs afterwards, at first in byte {first:?}")
}
