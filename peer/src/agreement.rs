//! What two formulations are held against each other by: everything that a case leaves behind.

use crate::random::cases::Case;
use crate::slow::plain::{Value, evaluate, tree_at};
use crate::slow::tree::{Sort, read};
use crate::slow::{self, demand, derivation, slots};
use crate::{Answer, Verdict};

/// What a case leaves behind.
#[derive(Clone, Debug, PartialEq, Eq)]
pub struct Outcome {
    pub verdict: Verdict,
    pub answer: Answer,
    pub store: Vec<u32>,
    pub work: Vec<u32>,
}

/// The most things in an owned context that the derivation is asked to split.
const SPLIT: usize = 5;

/// The outcome of a case by a checker and a machine.
pub fn outcome(
    case: &Case,
    check: impl Fn(&[u8]) -> Verdict,
    run: impl Fn(&[u8], &[u32], &mut [u32], &mut [u32], u32) -> Answer,
) -> Outcome {
    let Case { file, arguments, mut store, mut work, budget } = case.clone();
    let verdict = check(&file);
    let answer = run(&file, &arguments, &mut store, &mut work, budget);
    Outcome { verdict, answer, store, work }
}

/// The outcome by the fast checker and machine.
pub fn fast(case: &Case) -> Outcome {
    outcome(case, crate::check, crate::run)
}

/// The outcome by the slow checker and machine.
pub fn slow(case: &Case) -> Outcome {
    outcome(case, slow::check, slow::run)
}

/// Whether the derivation accepts exactly what the slots do; nothing if the file can't be read or its contexts are too large.
pub fn derivation_agrees(file: &[u8]) -> Option<bool> {
    let rules = read(file).ok()?;
    let derived = derivation::derives(&rules, SPLIT)?;
    Some(derived == slots::track(&rules).is_ok())
}

/// Whether the plain-tree evaluation ends as an outcome says; nothing if the run was refused.
pub fn plain_agrees(case: &Case, outcome: &Outcome) -> Option<bool> {
    let Outcome { answer, store, .. } = outcome;
    if (1..=24).contains(&answer.number) {
        return None;
    }
    let rules = read(&case.file).ok()?;
    let plain = evaluate(&rules, &case.arguments, &case.store, case.budget);
    let end = match plain.end {
        Err(stop) => (stop.number, stop.place as u32) == (answer.number, answer.place) && answer.value == 0,
        Ok(value) => {
            let number = rules.functions[0].result == Sort::Number;
            let found = if number { Value::Number(answer.value) } else { tree_at(&rules, store, answer.value) };
            answer.number == 0 && answer.place == 0 && found == value
        }
    };
    Some(end && plain.steps == answer.steps && plain.frames as u32 == answer.frames)
}

/// Whether demand 3 holds after each step of a case and the steps end as an outcome says; nothing if the run was refused.
pub fn demand_agrees(case: &Case, outcome: &Outcome) -> Option<bool> {
    if (1..=24).contains(&outcome.answer.number) {
        return None;
    }
    let rules = read(&case.file).ok()?;
    let end = demand::run(&rules, &case.arguments, &case.store, case.budget);
    Some(end == Some((outcome.answer, outcome.store.clone())))
}
