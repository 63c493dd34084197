//! The decoded nodes that the machine runs, and the two ways of collecting them while a file is read.

use crate::FUNCTIONS;

/// One node, or the head of one branch; slots that a node binds are known before the run.
#[derive(Clone, Copy)]
pub enum Instruction {
    Give { slot: u8 },
    Atom { constructor: u8, bind: u8 },
    Make { constructor: u8, credit: u8, arity: u8, fields: [u8; 4], bind: u8 },
    Call { function: u8, count: u8, arguments: [u8; 8], bind: u8 },
    Tail { function: u8, count: u8, arguments: [u8; 8] },
    Open { slot: u8 },
    Look { slot: u8 },
    Branch { constructor: u8, arity: u8, bind: u8, next: u16 },
    Number { constant: u16, bind: u8 },
    Arithmetic { operation: u8, left: u8, right: u8, bind: u8 },
    If { slot: u8, second: u16 },
}

/// An instruction with the place of its mark, sixteen bytes in all.
#[derive(Clone, Copy)]
#[repr(align(16))]
pub struct Node {
    pub place: u16,
    pub instruction: Instruction,
}

/// What the reading of a file hands each record to.
pub trait Collect {
    /// Notes that a function's body begins with the next instruction.
    fn body(&mut self, function: usize);
    /// Takes the next instruction and says which one it is.
    fn take(&mut self, place: usize, instruction: Instruction) -> u16;
    /// Makes an earlier branch or IF point to the instruction that comes next.
    fn point(&mut self, earlier: u16);
}

/// Collects nothing, for a check without a run.
pub struct Nothing;

impl Collect for Nothing {
    /// Notes nothing.
    fn body(&mut self, _function: usize) {}

    /// Takes nothing.
    fn take(&mut self, _place: usize, _instruction: Instruction) -> u16 {
        0
    }

    /// Points nowhere.
    fn point(&mut self, _earlier: u16) {}
}

/// All nodes of a file in file order, and where each body begins.
pub struct Program {
    pub nodes: Vec<Node>,
    pub bodies: [u16; FUNCTIONS],
}

impl Program {
    /// An empty program with room for a file of this many bytes.
    pub fn new(bytes: usize) -> Program {
        Program { nodes: Vec::with_capacity(bytes / 3), bodies: [0; FUNCTIONS] }
    }
}

impl Collect for Program {
    /// Notes where the body begins.
    fn body(&mut self, function: usize) {
        self.bodies[function] = self.nodes.len() as u16;
    }

    /// Appends the instruction.
    fn take(&mut self, place: usize, instruction: Instruction) -> u16 {
        self.nodes.push(Node { place: place as u16, instruction });
        (self.nodes.len() - 1) as u16
    }

    /// Fills in the target of a branch or of an IF.
    fn point(&mut self, earlier: u16) {
        let target = self.nodes.len() as u16;
        match &mut self.nodes[usize::from(earlier)].instruction {
            Instruction::Branch { next, .. } => *next = target,
            Instruction::If { second, .. } => *second = target,
            _ => {}
        }
    }
}
