//! Whole cases: a file, its start, a work area and a budget.

use super::damage::damage;
use super::grow::{self, Shapes};
use super::starts::{Start, spoil, start};
use super::{Random, limits};
use crate::slow::tree::read;
use crate::{Answer, CELLS, WORK_WORDS, run};

/// Everything that a run is lent.
#[derive(Clone, Debug, PartialEq, Eq)]
pub struct Case {
    pub file: Vec<u8>,
    pub arguments: Vec<u32>,
    pub store: Vec<u32>,
    pub work: Vec<u32>,
    pub budget: u32,
}

/// The greatest budget that is given without being asked for by an exact run.
const GREATEST_BUDGET: usize = 2_000;

/// A random case.
pub fn case(random: &mut Random) -> Case {
    let (file, shapes) = file(random);
    let Start { arguments, store, .. } = lent(random, &shapes);
    let mut case = Case { file, arguments, store, work: Vec::new(), budget: 0 };
    case.work = work(random);
    case.budget = budget(random, &case);
    case
}

/// A random file: grown, damaged, or at a limit.
pub fn file(random: &mut Random) -> (Vec<u8>, Shapes) {
    if random.percent(2) {
        let files = limits::all();
        let index = random.below(files.len());
        let file = files[index].clone();
        let shapes = declared(&file);
        return (file, shapes);
    }
    let (mut file, shapes) = grow::file(random);
    if random.percent(25) {
        damage(random, &mut file);
    }
    (file, shapes)
}

/// What a file declares, if it can be read.
fn declared(file: &[u8]) -> Shapes {
    let Ok(rules) = read(file) else { return Shapes::default() };
    let signature =
        |function: &crate::slow::tree::Function| grow::Signature { modes: function.modes.clone(), result: function.result };
    Shapes { constructors: rules.constructors, functions: rules.functions.iter().map(signature).collect() }
}

/// A random start: mostly as it should be, sometimes spoiled.
fn lent(random: &mut Random, shapes: &Shapes) -> Start {
    let cells = match random.below(100) {
        0 => CELLS - random.below(2),
        1..5 => random.below(200),
        5..30 => random.below(40),
        _ => random.below(9),
    };
    let mut start = start(random, shapes, cells);
    if random.percent(30) {
        spoil(random, shapes, &mut start);
    }
    if random.percent(1) {
        start.store.extend((0..1 + random.below(5)).map(|_| 0));
    }
    start
}

/// A random work area, rarely too small.
fn work(random: &mut Random) -> Vec<u32> {
    let length = match random.below(100) {
        0 => random.below(WORK_WORDS),
        1 => WORK_WORDS - 1,
        2..50 => WORK_WORDS,
        _ => WORK_WORDS + random.below(9),
    };
    let word = random.number() as u32;
    vec![word; length]
}

/// A random budget: small, larger, as exact as the run needs it, one less, none, or the greatest.
fn budget(random: &mut Random, case: &Case) -> u32 {
    let steps = || answer(&Case { budget: GREATEST_BUDGET as u32, ..case.clone() }).steps;
    match random.below(20) {
        0..4 => 1 + random.below(12) as u32,
        4..7 => steps().max(1),
        7..10 => steps().saturating_sub(1),
        10 => 0,
        11 if steps() < GREATEST_BUDGET as u32 => u32::MAX,
        _ => 1 + random.below(GREATEST_BUDGET) as u32,
    }
}

/// The answer to a case.
fn answer(case: &Case) -> Answer {
    let mut case = case.clone();
    run(&case.file, &case.arguments, &mut case.store, &mut case.work, case.budget)
}
