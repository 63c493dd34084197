//! Starts: trees in a store, sometimes shared, cyclic or malformed.

use super::Random;
use super::grow::Shapes;
use crate::slow::tree::{Mode, Sort};
use crate::{CELL_WORDS, FIRST_CELL};

/// The arguments of a run and its store, and the cells that were put there for owned and for lent arguments.
#[derive(Clone)]
pub struct Start {
    pub arguments: Vec<u32>,
    pub store: Vec<u32>,
    pub owned: Vec<u32>,
    pub lent: Vec<u32>,
}

/// A start that is as it should be, with so many cells in the store.
pub fn start(random: &mut Random, shapes: &Shapes, cells: usize) -> Start {
    let mut free: Vec<u32> = (0..cells as u32).collect();
    random.shuffle(&mut free);
    let store = (0..cells * CELL_WORDS).map(|_| word(random, cells)).collect();
    let mut planter = Planter { random, shapes, store, free, owned: Vec::new(), lent: Vec::new() };
    let modes = shapes.functions.first().map_or(&[][..], |function| &function.modes);
    let mut arguments = Vec::new();
    for mode in modes {
        arguments.push(match mode {
            Mode::Number => small(planter.random),
            Mode::Lent => planter.lent(cells / modes.len()),
            Mode::Owned => planter.owned(cells / modes.len()),
        });
    }
    Start { arguments, store: planter.store, owned: planter.owned, lent: planter.lent }
}

/// A number word, mostly a small one.
fn small(random: &mut Random) -> u32 {
    random.rarely(20, 65_536, 6) as u32
}

/// A word that may be anything.
fn word(random: &mut Random, cells: usize) -> u32 {
    match random.below(6) {
        0 => random.number() as u32,
        1 | 2 => random.below(5) as u32,
        3 => FIRST_CELL - 1 + random.below(3) as u32,
        _ => FIRST_CELL + random.below(cells + 1) as u32,
    }
}

/// What puts trees into a store.
struct Planter<'a> {
    random: &'a mut Random,
    shapes: &'a Shapes,
    store: Vec<u32>,
    free: Vec<u32>,
    owned: Vec<u32>,
    lent: Vec<u32>,
}

impl Planter<'_> {
    /// A lent tree, sometimes one that was lent before.
    fn lent(&mut self, size: usize) -> u32 {
        if self.random.percent(25)
            && let Some(cell) = self.random.pick(&self.lent)
        {
            return FIRST_CELL + cell;
        }
        let before = self.free.clone();
        let word = self.tree(size);
        self.lent.extend(&before[self.free.len()..]);
        word
    }

    /// An owned tree.
    fn owned(&mut self, size: usize) -> u32 {
        let before = self.free.clone();
        let word = self.tree(size);
        self.owned.extend(&before[self.free.len()..]);
        word
    }

    /// A tree of about so many cells.
    fn tree(&mut self, size: usize) -> u32 {
        let constructors = &self.shapes.constructors;
        let wanted = |index: &usize| (constructors[*index].is_empty()) == (size == 0 || self.free.is_empty());
        let fitting: Vec<usize> = (0..constructors.len().min(64)).filter(wanted).collect();
        let Some(constructor) = self.random.pick(&fitting) else { return 0 };
        let sorts = constructors[constructor].clone();
        if sorts.is_empty() {
            return constructor as u32;
        }
        let Some(cell) = self.free.pop() else { return 0 };
        let trees = sorts.iter().filter(|sort| **sort == Sort::Tree).count();
        let mut left = size - 1;
        let mut fields = vec![constructor as u32];
        for (index, sort) in sorts.iter().enumerate() {
            fields.push(if *sort == Sort::Number {
                small(self.random)
            } else {
                let last = sorts[index + 1..].iter().all(|sort| *sort == Sort::Number);
                let share = if last || trees == 1 { left } else { self.random.below(left + 1) };
                left -= share;
                self.tree(share)
            });
        }
        let at = cell as usize * CELL_WORDS;
        self.store[at..at + fields.len()].copy_from_slice(&fields);
        FIRST_CELL + cell
    }
}

/// Changes a word or two of a start.
pub fn spoil(random: &mut Random, shapes: &Shapes, start: &mut Start) {
    let cells = start.store.len() / CELL_WORDS;
    for _ in 0..1 + random.below(2) {
        match random.below(8) {
            0 => spoil_argument(random, start, cells),
            1 => repeat_argument(random, start),
            2 if random.percent(30) => drop(start.arguments.pop()),
            2 if random.percent(50) => start.arguments.push(small(random)),
            _ if cells == 0 => spoil_argument(random, start, cells),
            3 => {
                let place = random.below(start.store.len());
                start.store[place] = word(random, cells);
            }
            4 => start.store[random.below(cells) * CELL_WORDS] = random.below(5) as u32,
            _ => link(random, shapes, start),
        }
    }
}

/// Sets an argument to anything.
fn spoil_argument(random: &mut Random, start: &mut Start, cells: usize) {
    let index = random.below(start.arguments.len());
    if let Some(argument) = start.arguments.get_mut(index) {
        *argument = word(random, cells);
    }
}

/// Sets an argument to another.
fn repeat_argument(random: &mut Random, start: &mut Start) {
    let index = random.below(start.arguments.len());
    if let Some(word) = random.pick(&start.arguments) {
        start.arguments[index] = word;
    }
}

/// Makes a tree field of a cell name a cell: lent ones among each other, or any.
fn link(random: &mut Random, shapes: &Shapes, start: &mut Start) {
    let all = [&start.owned[..], &start.lent[..]].concat();
    let from = if random.percent(60) { &start.lent } else { &all };
    let to = if random.percent(80) { from } else { &all };
    let (Some(cell), Some(named)) = (random.pick(from), random.pick(to)) else { return };
    let place = cell as usize * CELL_WORDS;
    let Some(sorts) = shapes.constructors.get(start.store[place] as usize) else { return };
    let trees: Vec<usize> = (0..sorts.len()).filter(|index| sorts[*index] == Sort::Tree).collect();
    if let Some(index) = random.pick(&trees) {
        start.store[place + 1 + index] = FIRST_CELL + named;
    }
}
