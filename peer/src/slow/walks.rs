//! Flat or stacked, by walks over the calls written in the bodies.

use super::tree::{Node, Rules, Term};
use crate::Verdict;
use std::collections::BTreeSet;

/// A call written in a body.
#[derive(Clone, Copy)]
struct Call {
    caller: usize,
    called: usize,
    waits: bool,
}

/// The verdict on an accepted file.
pub fn verdict(rules: &Rules) -> Verdict {
    let calls = calls(rules);
    let from_0 = walk(&calls, 0);
    let reached = from_0.len() as u32;
    let closed = |call: &Call| call.waits && from_0.contains(&call.caller) && walk(&calls, call.called).contains(&call.caller);
    if calls.iter().any(closed) {
        return Verdict::Stacked { reached };
    }
    Verdict::Flat { depth: most_waiting(&calls) + 1, reached }
}

/// All calls of all bodies.
fn calls(rules: &Rules) -> Vec<Call> {
    let mut calls = Vec::new();
    for (caller, body) in rules.bodies.iter().enumerate() {
        collect(body, caller, &mut calls);
    }
    calls
}

/// Adds the calls of a term.
fn collect(term: &Term, caller: usize, calls: &mut Vec<Call>) {
    match &term.node {
        Node::Give { .. } => {}
        Node::Tail { function, .. } => calls.push(Call { caller, called: function.value, waits: false }),
        Node::Call { function, next, .. } => {
            calls.push(Call { caller, called: function.value, waits: true });
            collect(next, caller, calls);
        }
        Node::Atom { next, .. } | Node::Make { next, .. } | Node::Number { next, .. } | Node::Arithmetic { next, .. } => {
            collect(next, caller, calls);
        }
        Node::Open { branches, .. } | Node::Look { branches, .. } => {
            for branch in branches {
                collect(&branch.term, caller, calls);
            }
        }
        Node::If { first, second, .. } => {
            collect(first, caller, calls);
            collect(second, caller, calls);
        }
    }
}

/// The functions in which a walk from a function ends, the empty walk included.
fn walk(calls: &[Call], from: usize) -> BTreeSet<usize> {
    let mut ends = BTreeSet::from([from]);
    loop {
        let further: Vec<usize> = calls.iter().filter(|call| ends.contains(&call.caller)).map(|call| call.called).collect();
        let before = ends.len();
        ends.extend(further);
        if ends.len() == before {
            return ends;
        }
    }
}

/// The largest number of CL on a walk from function 0, of calls that have no closed walk with a CL.
fn most_waiting(calls: &[Call]) -> u32 {
    let mut ends = BTreeSet::from([(0, 0)]);
    loop {
        let mut further = BTreeSet::new();
        for (function, waiting) in &ends {
            for call in calls.iter().filter(|call| call.caller == *function) {
                further.insert((call.called, waiting + u32::from(call.waits)));
            }
        }
        let before = ends.len();
        ends.extend(further);
        if ends.len() == before {
            return ends.iter().map(|(_, waiting)| *waiting).max().unwrap_or(0);
        }
    }
}
