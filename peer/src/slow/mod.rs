//! The same rules a second time, slow and close to document 01's words, for tests.

pub mod demand;
pub mod derivation;
pub mod places;
pub mod plain;
pub mod slots;
pub mod store;
pub mod tree;
pub mod walks;

use crate::{Answer, CELL_WORDS, CELLS, Refusal, Verdict, WORK_WORDS};
use tree::Rules;

/// Reads a file and tests its ownership.
pub fn accept(file: &[u8]) -> Result<Rules, Refusal> {
    let rules = tree::read(file)?;
    slots::track(&rules)?;
    Ok(rules)
}

/// Checks a file.
pub fn check(file: &[u8]) -> Verdict {
    match accept(file) {
        Ok(rules) => walks::verdict(&rules),
        Err(refusal) => refusal.into(),
    }
}

/// The refusal of a run before its first step, if it is refused.
pub fn refusal(file: &[u8], arguments: &[u32], store: &[u32], work: &[u32]) -> Result<Rules, Refusal> {
    let rules = accept(file)?;
    if !store.len().is_multiple_of(CELL_WORDS) || store.len() > CELLS * CELL_WORDS || work.len() < WORK_WORDS {
        return Err(Refusal::new(20, 0));
    }
    if rules.functions[0].modes.len() != arguments.len() {
        return Err(Refusal::new(21, 0));
    }
    places::start(&rules, arguments, store)?;
    Ok(rules)
}

/// Runs function 0 of a file over a lent store.
pub fn run(file: &[u8], arguments: &[u32], store: &mut [u32], work: &mut [u32], budget: u32) -> Answer {
    match refusal(file, arguments, store, work) {
        Err(refusal) => {
            if refusal.number >= 22 {
                work[..WORK_WORDS].fill(0);
            }
            refusal.into()
        }
        Ok(rules) => {
            let mut machine = store::Machine::new(&rules, arguments, store, budget);
            let answer = loop {
                if let Some(answer) = machine.step() {
                    break answer;
                }
            };
            store.copy_from_slice(&machine.cells.concat());
            work[..WORK_WORDS].fill(0);
            answer
        }
    }
}
