//! The start check: one walk over the cells that the arguments reach.

use crate::declared::{Constructor, Declared, Mode};
use crate::{CELLS, FIRST_CELL};

/// A cell as the store has it.
pub type Cell = [u32; 5];

/// Nobody has come to the cell yet.
const FRESH: u32 = 0;
/// The cell is reached from an owned argument.
const OWNED: u32 = 1;
/// The cell is reached from a lent argument, and the walk stands in it or below it.
const ENTERED: u32 = 2;
/// The cell is reached from a lent argument, and the walk has left it.
const LEFT: u32 = 3;

/// The walk's state: a mark for each cell, a stack, and what it has come across.
struct Walk<'a> {
    declared: &'a Declared,
    cells: &'a [Cell],
    marks: &'a mut [u32],
    stack: &'a mut [u32],
    height: usize,
    shared: bool,
    looped: bool,
}

/// The number of the refusal of a start, if it is refused; the work area holds the marks and the stack.
pub fn start(declared: &Declared, modes: &[Mode], arguments: &[u32], cells: &[Cell], work: &mut [u32]) -> Result<(), u8> {
    let (marks, rest) = work.split_at_mut(CELLS);
    marks[..cells.len()].fill(FRESH);
    let stack = &mut rest[..CELLS];
    let mut walk = Walk { declared, cells, marks, stack, height: 0, shared: false, looped: false };
    for (mode, word) in modes.iter().zip(arguments) {
        match mode {
            Mode::Number if *word >= FIRST_CELL => return Err(22),
            Mode::Owned => walk.owned(*word)?,
            _ => {}
        }
    }
    for (mode, word) in modes.iter().zip(arguments) {
        if *mode == Mode::Lent {
            walk.lent(*word)?;
        }
    }
    match (walk.shared, walk.looped) {
        (true, _) => Err(23),
        (false, true) => Err(24),
        (false, false) => Ok(()),
    }
}

impl Walk<'_> {
    /// Walks everything reached from a word of an owned argument; a stack entry is a cell and the tree fields still to be walked.
    fn owned(&mut self, word: u32) -> Result<(), u8> {
        let mut due = Some(word);
        while let Some(word) = due {
            let mut entry = 0;
            if let Some((number, trees)) = self.named(word)? {
                if self.marks[number] == FRESH {
                    self.marks[number] = OWNED;
                    entry = (number as u32) << 4 | u32::from(trees);
                } else {
                    self.shared = true;
                }
            }
            due = self.next_due(entry);
        }
        Ok(())
    }

    /// The first tree field of an entry, or of the uppermost on the stack if this one has none; the entry's others are put on the stack.
    #[inline(always)]
    fn next_due(&mut self, mut entry: u32) -> Option<u32> {
        if entry & 15 == 0 {
            self.height = self.height.checked_sub(1)?;
            entry = self.stack[self.height];
        }
        let others = entry & (entry - 1);
        if others & 15 != 0 {
            self.stack[self.height] = others;
            self.height += 1;
        }
        Some(self.cells[(entry >> 4) as usize][1 + (entry.trailing_zeros() & 3) as usize])
    }

    /// Walks everything reached from a word of a lent argument; a stack entry is a cell and the tree fields still to be walked.
    fn lent(&mut self, word: u32) -> Result<(), u8> {
        self.meet_lent(word)?;
        while self.height > 0 {
            let entry = self.stack[self.height - 1];
            let number = (entry >> 4) as usize;
            let trees = entry & 15;
            if trees == 0 {
                self.marks[number] = LEFT;
                self.height -= 1;
            } else {
                self.stack[self.height - 1] = entry & (entry - 1);
                self.meet_lent(self.cells[number][1 + (trees.trailing_zeros() & 3) as usize])?;
            }
        }
        Ok(())
    }

    /// Meets a word at a place of a lent argument or cell.
    #[inline(always)]
    fn meet_lent(&mut self, word: u32) -> Result<(), u8> {
        let Some((number, trees)) = self.named(word)? else { return Ok(()) };
        match self.marks[number] {
            FRESH => {
                self.marks[number] = ENTERED;
                self.stack[self.height] = (number as u32) << 4 | u32::from(trees);
                self.height += 1;
            }
            OWNED => self.shared = true,
            ENTERED => self.looped = true,
            _ => {}
        }
        Ok(())
    }

    /// The cell that a tree word names and its tree fields, nothing for an atom, and 22 for a malformed word.
    #[inline(always)]
    fn named(&self, word: u32) -> Result<Option<(usize, u8)>, u8> {
        if word < FIRST_CELL {
            return match self.declared.constructor(word) {
                Some(Constructor { arity: 0, .. }) => Ok(None),
                _ => Err(22),
            };
        }
        let number = (word - FIRST_CELL) as usize;
        let cell = self.cells.get(number).ok_or(22)?;
        let constructor = self.declared.constructor(cell[0]).ok_or(22)?;
        let numbers = !constructor.trees & ((1 << (constructor.arity & 7)) - 1);
        let too_large = (0..4).any(|index| numbers >> index & 1 == 1 && cell[1 + index] >= FIRST_CELL);
        if constructor.arity == 0 || too_large { Err(22) } else { Ok(Some((number, constructor.trees))) }
    }
}
