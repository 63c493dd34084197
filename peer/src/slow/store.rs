//! A machine over the store that goes node by node through the terms and keeps each slot's kind, so that every state can be looked at.

use super::plain::arithmetic;
use super::slots::{Kind, Slot, branch_kinds, hand_over, make, parameter_kind, result_kind};
use super::tree::{Branch, Byte, Node, Rules, Term};
use crate::{Answer, CELL_WORDS, FIRST_CELL, FRAMES};

/// One frame: its slots, their words, and the term that comes next.
pub struct Frame<'a> {
    pub slots: Vec<Slot>,
    pub words: Vec<u32>,
    pub at: &'a Term,
    result: Kind,
}

/// A state of a run.
pub struct Machine<'a> {
    rules: &'a Rules,
    pub frames: Vec<Frame<'a>>,
    pub cells: Vec<[u32; CELL_WORDS]>,
    pub steps: u32,
    budget: u32,
    greatest: usize,
}

impl<'a> Frame<'a> {
    /// The frame of a function with its arguments.
    fn new(rules: &'a Rules, function: usize, arguments: &[u32]) -> Frame<'a> {
        let declared = &rules.functions[function];
        let slots = declared.modes.iter().map(|mode| Slot::new(parameter_kind(*mode))).collect();
        Frame { slots, words: arguments.to_vec(), at: &rules.bodies[function], result: result_kind(declared.result) }
    }

    /// Binds the next slot.
    fn bind(&mut self, kind: Kind, word: u32) {
        self.slots.push(Slot::new(kind));
        self.words.push(word);
    }

    /// The words of some slots.
    fn pick(&self, slots: &[Byte]) -> Vec<u32> {
        slots.iter().map(|slot| self.words[slot.value]).collect()
    }
}

impl<'a> Machine<'a> {
    /// The state before the first node.
    pub fn new(rules: &'a Rules, arguments: &[u32], store: &[u32], budget: u32) -> Machine<'a> {
        let frames = vec![Frame::new(rules, 0, arguments)];
        let cells = store.as_chunks().0.to_vec();
        Machine { rules, frames, cells, steps: 0, budget, greatest: 1 }
    }

    /// The answer of a run that ends now.
    fn end(&self, number: u32, value: u32, place: usize) -> Option<Answer> {
        Some(Answer { number, value, steps: self.steps, place: place as u32, frames: self.greatest as u32 })
    }

    /// Runs one node, and gives the answer if the run ends.
    pub fn step(&mut self) -> Option<Answer> {
        let frame = self.frames.last_mut().expect("a frame stands");
        let at = frame.at;
        if self.steps == self.budget {
            return self.end(32, 0, at.mark);
        }
        self.steps += 1;
        match &at.node {
            Node::Give { slot } => return self.give(*slot),
            Node::Call { function, arguments, next } => return self.call(at.mark, *function, arguments, next),
            Node::Tail { function, arguments } => {
                *frame = Frame::new(self.rules, function.value, &frame.pick(arguments));
            }
            Node::Open { slot, branches } => return self.list(at.mark, *slot, branches, true),
            Node::Look { slot, branches } => return self.list(at.mark, *slot, branches, false),
            Node::Atom { constructor, next } => {
                frame.bind(Kind::Owned, constructor.value as u32);
                frame.at = next;
            }
            Node::Make { constructor, credit, fields, next } => self.make(*constructor, *credit, fields, next),
            Node::Number { constant, next } => {
                frame.bind(Kind::Number, *constant);
                frame.at = next;
            }
            Node::Arithmetic { operation, left, right, next } => {
                let Some(result) = arithmetic(*operation, frame.words[left.value], frame.words[right.value]) else {
                    return self.end(34, 0, at.mark);
                };
                frame.bind(Kind::Number, result);
                frame.at = next;
            }
            Node::If { slot, first, second } => {
                frame.at = if frame.words[slot.value] != 0 { first } else { second };
            }
        }
        None
    }

    /// GV removes the frame.
    fn give(&mut self, slot: Byte) -> Option<Answer> {
        let frame = self.frames.pop().expect("a frame stands");
        let value = frame.words[slot.value];
        match self.frames.last_mut() {
            None => self.end(0, value, 0),
            Some(waiting) => {
                waiting.bind(frame.result, value);
                None
            }
        }
    }

    /// CL adds a frame.
    fn call(&mut self, mark: usize, function: Byte, arguments: &[Byte], next: &'a Term) -> Option<Answer> {
        if self.frames.len() == FRAMES {
            return self.end(33, 0, mark);
        }
        let frame = self.frames.last_mut().expect("a frame stands");
        hand_over(&mut frame.slots, &self.rules.functions[function.value], arguments).expect("the file is accepted");
        frame.at = next;
        let words = frame.pick(arguments);
        self.frames.push(Frame::new(self.rules, function.value, &words));
        self.greatest = self.greatest.max(self.frames.len());
        None
    }

    /// MK writes the credit's cell.
    fn make(&mut self, constructor: Byte, credit: Byte, fields: &[Byte], next: &'a Term) {
        let frame = self.frames.last_mut().expect("a frame stands");
        make(&mut frame.slots, &self.rules.constructors[constructor.value], credit, fields).expect("the file is accepted");
        let word = frame.words[credit.value];
        let cell = &mut self.cells[(word - FIRST_CELL) as usize];
        cell[0] = constructor.value as u32;
        cell[1..=fields.len()].copy_from_slice(&frame.pick(fields));
        frame.bind(Kind::Owned, word);
        frame.at = next;
    }

    /// OP and LK go to the branch that fits.
    fn list(&mut self, mark: usize, slot: Byte, branches: &'a [Branch], open: bool) -> Option<Answer> {
        let frame = self.frames.last_mut().expect("a frame stands");
        let word = frame.words[slot.value];
        let cell = if word < FIRST_CELL { [word, 0, 0, 0, 0] } else { self.cells[(word - FIRST_CELL) as usize] };
        let Some(branch) = branches.iter().find(|branch| branch.constructor.value == cell[0] as usize) else {
            return self.end(31, 0, mark);
        };
        frame.slots[slot.value].used = open;
        let kinds = branch_kinds(&self.rules.constructors[branch.constructor.value], open);
        for (index, kind) in kinds.into_iter().enumerate() {
            frame.bind(kind, if let Kind::Credit(_) = kind { word } else { cell[1 + index] });
        }
        frame.at = &branch.term;
        None
    }
}
