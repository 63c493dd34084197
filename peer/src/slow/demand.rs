//! Demand 3 after each step: the cells that the frames own are the start's, each once, and no other cell has changed.

use super::slots::Kind;
use super::store::Machine;
use super::tree::{Mode, Rules, Sort};
use crate::{Answer, CELL_WORDS, FIRST_CELL};
use std::collections::BTreeSet;

/// What must stay true through a run.
pub struct Demand<'a> {
    rules: &'a Rules,
    first: Vec<[u32; CELL_WORDS]>,
    owned: BTreeSet<usize>,
}

impl<'a> Demand<'a> {
    /// The demand on runs that start with these arguments and this store.
    pub fn new(rules: &'a Rules, arguments: &[u32], store: &[u32]) -> Demand<'a> {
        let first: Vec<[u32; CELL_WORDS]> = store.as_chunks().0.to_vec();
        let mut demand = Demand { rules, first: first.clone(), owned: BTreeSet::new() };
        let mut owned = Vec::new();
        for (mode, word) in rules.functions[0].modes.iter().zip(arguments) {
            if *mode == Mode::Owned {
                demand.reach(&first, *word, &mut owned);
            }
        }
        demand.owned = owned.into_iter().collect();
        demand
    }

    /// Adds the cells that a tree word reaches, as often as it reaches them.
    fn reach(&self, cells: &[[u32; CELL_WORDS]], word: u32, found: &mut Vec<usize>) {
        let Some(number) = word.checked_sub(FIRST_CELL) else { return };
        let cell = cells[number as usize];
        found.push(number as usize);
        for (sort, word) in self.rules.constructors[cell[0] as usize].iter().zip(&cell[1..]) {
            if *sort == Sort::Tree && found.len() <= cells.len() {
                self.reach(cells, *word, found);
            }
        }
    }

    /// Tests a state between two steps.
    pub fn holds(&self, machine: &Machine) -> bool {
        let mut found = Vec::new();
        for frame in &machine.frames {
            for (slot, word) in frame.slots.iter().zip(&frame.words) {
                match slot.kind {
                    _ if slot.used => {}
                    Kind::Owned => self.reach(&machine.cells, *word, &mut found),
                    Kind::Credit(_) => found.push((*word - FIRST_CELL) as usize),
                    Kind::Number | Kind::Lent => {}
                }
            }
        }
        self.kept(&machine.cells, found)
    }

    /// Tests the store that a run leaves when it is done.
    pub fn holds_at_the_end(&self, machine: &Machine, answer: Answer) -> bool {
        let mut found = Vec::new();
        if self.rules.functions[0].result == Sort::Tree {
            self.reach(&machine.cells, answer.value, &mut found);
        }
        self.kept(&machine.cells, found)
    }

    /// Whether the cells found are the start's, each once, and the others are as lent.
    fn kept(&self, cells: &[[u32; CELL_WORDS]], found: Vec<usize>) -> bool {
        let once: BTreeSet<usize> = found.iter().copied().collect();
        let others = |number: &usize| !self.owned.contains(number);
        found.len() == once.len()
            && once == self.owned
            && (0..cells.len()).filter(others).all(|number| cells[number] == self.first[number])
    }
}

/// Runs a start to its end with the demand tested after each step, and gives the answer; nothing if the demand fails.
pub fn run(rules: &Rules, arguments: &[u32], store: &[u32], budget: u32) -> Option<(Answer, Vec<u32>)> {
    let demand = Demand::new(rules, arguments, store);
    let mut machine = Machine::new(rules, arguments, store, budget);
    loop {
        let answer = machine.step();
        let holds = match answer {
            Some(answer) if answer.number == 0 => demand.holds_at_the_end(&machine, answer),
            _ => demand.holds(&machine),
        };
        match (holds, answer) {
            (false, _) => return None,
            (true, Some(answer)) => return Some((answer, machine.cells.concat())),
            (true, None) => {}
        }
    }
}
