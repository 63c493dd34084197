//! The start check by its statements: places, malformed words, and the cells reached from a set of words.

use super::tree::{Mode, Rules, Sort};
use crate::{CELL_WORDS, FIRST_CELL, Refusal};
use std::collections::BTreeSet;

/// A store with the constructors that its words are read by.
pub struct Store<'a> {
    pub rules: &'a Rules,
    pub words: &'a [u32],
}

impl Store<'_> {
    /// The cell that a word names, if it is a cell word.
    fn cell(&self, word: u32) -> Option<usize> {
        word.checked_sub(FIRST_CELL).map(|number| number as usize)
    }

    /// The sorts of the fields of a cell in the store whose constructor has an arity of 1 or more.
    fn sorts(&self, cell: usize) -> Option<&[Sort]> {
        let constructor = *self.words.get(cell * CELL_WORDS)?;
        let sorts = self.rules.constructors.get(constructor as usize)?;
        if sorts.is_empty() { None } else { Some(sorts) }
    }

    /// The words of the fields of one sort.
    fn fields(&self, cell: usize, wanted: Sort) -> Vec<u32> {
        let sorts = self.sorts(cell).unwrap_or(&[]);
        let word = |index: usize| self.words[cell * CELL_WORDS + 1 + index];
        (0..sorts.len()).filter(|index| sorts[*index] == wanted).map(word).collect()
    }

    /// Whether a number word is malformed.
    fn malformed_number(&self, word: u32) -> bool {
        word > 65_535
    }

    /// Whether a tree word is malformed.
    fn malformed_tree(&self, word: u32) -> bool {
        match self.cell(word) {
            None => !self.rules.constructors.get(word as usize).is_some_and(|sorts| sorts.is_empty()),
            Some(cell) => {
                self.sorts(cell).is_none() || self.fields(cell, Sort::Number).iter().any(|word| self.malformed_number(*word))
            }
        }
    }

    /// The cells found from some tree words through words that aren't malformed.
    pub fn reached(&self, words: &[u32]) -> BTreeSet<usize> {
        let mut found = BTreeSet::new();
        let mut due = words.to_vec();
        while let Some(word) = due.pop() {
            if let Some(cell) = self.cell(word)
                && !self.malformed_tree(word)
                && found.insert(cell)
            {
                due.extend(self.fields(cell, Sort::Tree));
            }
        }
        found
    }
}

/// The refusals 22 to 24 of a start.
pub fn start(rules: &Rules, arguments: &[u32], words: &[u32]) -> Result<(), Refusal> {
    let store = Store { rules, words };
    let with = |holds: fn(Mode) -> bool| -> Vec<u32> {
        let modes = &rules.functions[0].modes;
        modes.iter().zip(arguments).filter(|(mode, _)| holds(**mode)).map(|(_, word)| *word).collect()
    };
    let trees = with(|mode| mode != Mode::Number);
    let reachable = store.reached(&trees);
    let mut places = trees;
    places.extend(reachable.iter().flat_map(|cell| store.fields(*cell, Sort::Tree)));
    if with(|mode| mode == Mode::Number).iter().any(|word| store.malformed_number(*word))
        || places.iter().any(|word| store.malformed_tree(*word))
    {
        return Err(Refusal::new(22, 0));
    }
    let named = |cell: usize| places.iter().filter(|word| store.cell(**word) == Some(cell)).count();
    if store.reached(&with(|mode| mode == Mode::Owned)).into_iter().any(|cell| named(cell) > 1) {
        return Err(Refusal::new(23, 0));
    }
    if reachable.iter().any(|cell| store.reached(&store.fields(*cell, Sort::Tree)).contains(cell)) {
        return Err(Refusal::new(24, 0));
    }
    Ok(())
}
