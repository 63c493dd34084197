//! The machine: it runs the decoded nodes of an accepted file over the lent store.

use crate::check::decode;
use crate::program::{Instruction, Node, Program};
use crate::start::{Cell, start};
use crate::{Answer, CELL_WORDS, CELLS, FIRST_CELL, FRAMES, Refusal, SLOTS, WORK_WORDS};

/// All slots of all frames.
const ALL_SLOTS: usize = FRAMES * SLOTS;

/// Runs function 0 of a file over a lent store, with a lent work area and a budget of steps.
pub fn run(file: &[u8], arguments: &[u32], store: &mut [u32], work: &mut [u32], budget: u32) -> Answer {
    let (declared, program) = match decode(file) {
        Ok(decoded) => decoded,
        Err(refusal) => return refusal.into(),
    };
    if !store.len().is_multiple_of(CELL_WORDS) || store.len() > CELLS * CELL_WORDS || work.len() < WORK_WORDS {
        return Refusal::new(20, 0).into();
    }
    let modes = declared.function(0).map_or(&[][..], |function| function.modes());
    if modes.len() != arguments.len() {
        return Refusal::new(21, 0).into();
    }
    let (cells, _) = store.as_chunks_mut::<CELL_WORDS>();
    let area = &mut work[..WORK_WORDS];
    let answer = match start(&declared, modes, arguments, cells, area) {
        Err(number) => Refusal::new(number, 0).into(),
        Ok(()) => match area.first_chunk_mut::<ALL_SLOTS>() {
            Some(slots) => Machine::new(&program, cells, slots, arguments).run(budget),
            None => Refusal::new(20, 0).into(),
        },
    };
    area.fill(0);
    answer
}

/// Where a frame goes on when the call it waits for gives a value back.
#[derive(Clone, Copy, Default)]
struct Return {
    node: u16,
    bind: u8,
}

/// The state of a run; `base` is the first slot of the present frame.
struct Machine<'a> {
    program: &'a Program,
    cells: &'a mut [Cell],
    slots: &'a mut [u32; ALL_SLOTS],
    returns: [Return; FRAMES],
    base: usize,
    greatest: usize,
    next: usize,
}

/// How a node ends.
enum End {
    Goes,
    Done(u32),
    NoBranch,
    NoFrame,
    OutOfRange,
}

impl<'a> Machine<'a> {
    /// A machine that stands before the first node of function 0.
    fn new(program: &'a Program, cells: &'a mut [Cell], slots: &'a mut [u32; ALL_SLOTS], arguments: &[u32]) -> Machine<'a> {
        slots[..arguments.len()].copy_from_slice(arguments);
        let next = usize::from(program.bodies[0]);
        Machine { program, cells, slots, returns: [Return::default(); FRAMES], base: 0, greatest: 0, next }
    }

    /// Steps until an end.
    fn run(mut self, budget: u32) -> Answer {
        let program = self.program;
        let mut steps = 0;
        let (number, value, place) = loop {
            let Node { place, instruction } = &program.nodes[self.next];
            if steps == budget {
                break (32, 0, *place);
            }
            steps += 1;
            match self.step(instruction) {
                End::Goes => {}
                End::Done(value) => break (0, value, 0),
                End::NoBranch => break (31, 0, *place),
                End::NoFrame => break (33, 0, *place),
                End::OutOfRange => break (34, 0, *place),
            }
        };
        let frames = (self.greatest / SLOTS + 1) as u32;
        Answer { number, value, steps, place: place.into(), frames }
    }

    /// Runs one node.
    #[inline(always)]
    fn step(&mut self, instruction: &Instruction) -> End {
        self.next += 1;
        match instruction {
            Instruction::Give { slot } => return self.give(self.get(*slot)),
            Instruction::Atom { constructor, bind } => self.set(*bind, (*constructor).into()),
            Instruction::Make { constructor, credit, arity, fields, bind } => {
                self.make(*constructor, *credit, *arity, fields, *bind)
            }
            Instruction::Call { function, count, arguments, bind } => return self.call(*function, *count, arguments, *bind),
            Instruction::Tail { function, count, arguments } => self.tail(*function, *count, arguments),
            Instruction::Open { slot } => return self.list(*slot, true),
            Instruction::Look { slot } => return self.list(*slot, false),
            Instruction::Number { constant, bind } => self.set(*bind, (*constant).into()),
            Instruction::Arithmetic { operation, left, right, bind } => {
                let result = arithmetic(*operation, self.get(*left), self.get(*right));
                if result > 0xFFFF {
                    return End::OutOfRange;
                }
                self.set(*bind, result);
            }
            Instruction::If { slot, second } => {
                if self.get(*slot) == 0 {
                    self.next = (*second).into();
                }
            }
            Instruction::Branch { .. } => return End::NoBranch,
        }
        End::Goes
    }

    /// Gives a value back to the frame that waits for it, or ends the run.
    #[inline(always)]
    fn give(&mut self, value: u32) -> End {
        if self.base == 0 {
            return End::Done(value);
        }
        self.base -= SLOTS;
        let Return { node, bind } = self.returns[(self.base / SLOTS) & (FRAMES - 1)];
        self.next = node.into();
        self.set(bind, value);
        End::Goes
    }

    /// Writes the credit's cell.
    #[inline(always)]
    fn make(&mut self, constructor: u8, credit: u8, arity: u8, fields: &[u8; 4], bind: u8) {
        let word = self.get(credit);
        let number = (word - FIRST_CELL) as usize;
        self.cells[number][0] = constructor.into();
        for (index, field) in fields.iter().enumerate().take(arity.into()) {
            self.cells[number][1 + index] = self.get(*field);
        }
        self.set(bind, word);
    }

    /// Adds a frame for a function, if fewer than all stand.
    #[inline(always)]
    fn call(&mut self, function: u8, count: u8, arguments: &[u8; 8], bind: u8) -> End {
        let above = self.base + SLOTS;
        if above == ALL_SLOTS {
            return End::NoFrame;
        }
        self.returns[(self.base / SLOTS) & (FRAMES - 1)] = Return { node: self.next as u16, bind };
        for (index, argument) in arguments.iter().enumerate().take(count.into()) {
            self.slots[(above + index) & (ALL_SLOTS - 1)] = self.get(*argument);
        }
        self.next = self.program.bodies[usize::from(function & 31)].into();
        self.base = above;
        self.greatest = self.greatest.max(above);
        End::Goes
    }

    /// Hands arguments to the parameters of the present frame, and goes to the function's body.
    #[inline(always)]
    fn tail(&mut self, function: u8, count: u8, arguments: &[u8; 8]) {
        let mut values = [0; 8];
        for (value, argument) in values.iter_mut().zip(arguments).take(count.into()) {
            *value = self.get(*argument);
        }
        for (slot, value) in (0..count).zip(values) {
            self.set(slot, value);
        }
        self.next = self.program.bodies[usize::from(function & 31)].into();
    }

    /// Goes to the branch that fits a tree and binds its fields, and its cell as a credit if it is opened.
    #[inline(always)]
    fn list(&mut self, slot: u8, open: bool) -> End {
        let word = self.get(slot);
        let number = word.wrapping_sub(FIRST_CELL) as usize;
        let found = if word < FIRST_CELL { word } else { self.cells[number][0] };
        let program = self.program;
        while let Instruction::Branch { constructor, arity, bind, next } = &program.nodes[self.next].instruction {
            if found == u32::from(*constructor) {
                self.next += 1;
                if *arity > 0 {
                    self.bind_fields(word, number, *arity, *bind, open);
                }
                return End::Goes;
            }
            self.next = (*next).into();
        }
        End::NoBranch
    }

    /// Binds the fields of a cell, and the cell as a credit if it is opened.
    #[inline(always)]
    fn bind_fields(&mut self, word: u32, number: usize, arity: u8, bind: u8, open: bool) {
        let cell = self.cells[number];
        for index in 0..arity.min(4) {
            self.set(bind + index, cell[1 + usize::from(index)]);
        }
        if open {
            self.set(bind + arity, word);
        }
    }

    /// The word of a slot of the present frame.
    #[inline(always)]
    fn get(&self, slot: u8) -> u32 {
        self.slots[(self.base + usize::from(slot)) & (ALL_SLOTS - 1)]
    }

    /// Sets the word of a slot of the present frame.
    #[inline(always)]
    fn set(&mut self, slot: u8, word: u32) {
        self.slots[(self.base + usize::from(slot)) & (ALL_SLOTS - 1)] = word;
    }
}

/// The result of an AR; over 65,535 if a sum or a difference is no number.
#[inline(always)]
fn arithmetic(operation: u8, left: u32, right: u32) -> u32 {
    match operation {
        0 => left + right,
        1 => left.wrapping_sub(right),
        2 => u32::from(left < right),
        _ => u32::from(left == right),
    }
}
