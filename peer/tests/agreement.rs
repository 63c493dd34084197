//! Random cases: the fast and the slow formulations, the derivation, the plain trees and demand 3.

use peer::agreement::{demand_agrees, derivation_agrees, fast, plain_agrees, slow};
use peer::random::Random;
use peer::random::cases::{Case, case};
use std::collections::BTreeSet;

/// How many cases each test looks at.
const CASES: u64 = 3_000;

/// All answers of document 01's table, and 34.
const ANSWERS: [u32; 22] = [0, 1, 2, 3, 4, 5, 6, 7, 8, 9, 10, 11, 12, 20, 21, 22, 23, 24, 31, 32, 33, 34];

/// The random cases of a seed.
fn cases(seed: u64) -> impl Iterator<Item = Case> {
    (0..CASES).map(move |index| case(&mut Random::new(seed << 32 | index)))
}

/// Verdict, answer, store and work area are the same, and every answer occurs.
#[test]
fn fast_and_slow() {
    let mut answers = BTreeSet::new();
    for case in cases(11) {
        let fast = fast(&case);
        answers.insert(fast.answer.number);
        assert_eq!(fast, slow(&case), "{case:x?}");
    }
    assert_eq!(answers, BTreeSet::from(ANSWERS));
}

/// The derivation with its splitting accepts what the slots accept.
#[test]
fn derivation_and_slots() {
    let looked_at: Vec<bool> = cases(12).filter_map(|case| derivation_agrees(&case.file)).collect();
    assert!(looked_at.len() > 1_000);
    assert!(looked_at.iter().all(|agrees| *agrees));
}

/// The plain trees end as the machine does.
#[test]
fn plain_trees() {
    let looked_at: Vec<bool> = cases(13).filter_map(|case| plain_agrees(&case, &fast(&case))).collect();
    assert!(looked_at.len() > 1_000);
    assert!(looked_at.iter().all(|agrees| *agrees));
}

/// Demand 3 holds after each step.
#[test]
fn demand_3() {
    let short = |case: &Case| fast(case).answer.steps <= 500;
    let looked_at: Vec<bool> = cases(14).filter(short).filter_map(|case| demand_agrees(&case, &fast(&case))).collect();
    assert!(looked_at.len() > 800);
    assert!(looked_at.iter().all(|agrees| *agrees));
}

/// Each smaller budget leaves the store that the steps so far made.
#[test]
fn every_budget() {
    let short = |case: &Case| (1..60).contains(&fast(case).answer.steps);
    for case in cases(15).filter(short).take(300) {
        for budget in 0..=fast(&case).answer.steps {
            let case = Case { budget, ..case.clone() };
            assert_eq!(fast(&case), slow(&case), "{case:x?}");
        }
    }
}
