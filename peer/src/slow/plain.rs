//! The plain-tree evaluation: no store, no cells, calls nested as frames are, the same count of nodes.

use super::tree::{Branch, Byte, Mode, Node, Rules, Sort, Term};
use crate::{CELL_WORDS, FIRST_CELL, FRAMES};
use std::collections::HashMap;
use std::rc::Rc;

/// A value; a credit stands for nothing but itself.
#[derive(Clone, Debug, PartialEq, Eq)]
pub enum Value {
    Number(u32),
    Tree(Rc<Tree>),
    Credit,
}

/// A constructor with its fields.
#[derive(Debug, PartialEq, Eq)]
pub struct Tree {
    pub constructor: usize,
    pub fields: Vec<Value>,
}

/// An end in 31, 32, 33 or 34 at a place.
#[derive(Clone, Copy, Debug, PartialEq, Eq)]
pub struct Stop {
    pub number: u32,
    pub place: usize,
}

/// How an evaluation ended, after how many nodes, and how deep its calls were nested.
#[derive(Debug)]
pub struct Evaluated {
    pub end: Result<Value, Stop>,
    pub steps: u32,
    pub frames: usize,
}

/// What a term comes to: a value, or a tail call.
enum Outcome {
    Value(Value),
    Tail(usize, Vec<Value>),
}

/// The tree that a word names in a store.
pub fn tree_at(rules: &Rules, store: &[u32], word: u32) -> Value {
    Trees { rules, store, known: HashMap::new() }.tree(word)
}

/// The trees of a store, each cell read once.
struct Trees<'a> {
    rules: &'a Rules,
    store: &'a [u32],
    known: HashMap<u32, Value>,
}

impl Trees<'_> {
    /// The tree that a word names.
    fn tree(&mut self, word: u32) -> Value {
        if let Some(value) = self.known.get(&word) {
            return value.clone();
        }
        let cell = match word.checked_sub(FIRST_CELL) {
            None => &[word][..],
            Some(number) => &self.store[number as usize * CELL_WORDS..][..CELL_WORDS],
        };
        let sorts = &self.rules.constructors[cell[0] as usize];
        let mut fields = Vec::new();
        for (sort, word) in sorts.iter().zip(&cell[1..]) {
            fields.push(if *sort == Sort::Number { Value::Number(*word) } else { self.tree(*word) });
        }
        let value = Value::Tree(Rc::new(Tree { constructor: cell[0] as usize, fields }));
        self.known.insert(word, value.clone());
        value
    }
}

/// Evaluates function 0 on the arguments as they stand in a store.
pub fn evaluate(rules: &Rules, arguments: &[u32], store: &[u32], budget: u32) -> Evaluated {
    let mut trees = Trees { rules, store, known: HashMap::new() };
    let mut values = Vec::new();
    for (mode, word) in rules.functions[0].modes.iter().zip(arguments) {
        values.push(if *mode == Mode::Number { Value::Number(*word) } else { trees.tree(*word) });
    }
    let mut evaluation = Evaluation { rules, budget, steps: 0, greatest: 0 };
    let end = evaluation.function(0, values, 1);
    Evaluated { end, steps: evaluation.steps, frames: evaluation.greatest }
}

/// The counts that an evaluation keeps.
struct Evaluation<'a> {
    rules: &'a Rules,
    budget: u32,
    steps: u32,
    greatest: usize,
}

impl Evaluation<'_> {
    /// The value of a function on arguments, with so many frames standing.
    fn function(&mut self, function: usize, arguments: Vec<Value>, frames: usize) -> Result<Value, Stop> {
        self.greatest = self.greatest.max(frames);
        let rules = self.rules;
        let mut outcome = self.term(&rules.bodies[function], arguments, frames)?;
        loop {
            match outcome {
                Outcome::Value(value) => return Ok(value),
                Outcome::Tail(function, arguments) => outcome = self.term(&rules.bodies[function], arguments, frames)?,
            }
        }
    }

    /// What a term comes to from some bound values.
    fn term(&mut self, term: &Term, mut bound: Vec<Value>, frames: usize) -> Result<Outcome, Stop> {
        let mut at = term;
        loop {
            if self.steps == self.budget {
                return Err(Stop { number: 32, place: at.mark });
            }
            self.steps += 1;
            at = match &at.node {
                Node::Give { slot } => return Ok(Outcome::Value(bound[slot.value].clone())),
                Node::Tail { function, arguments } => return Ok(Outcome::Tail(function.value, pick(&bound, arguments))),
                Node::Call { function, arguments, next } => {
                    if frames == FRAMES {
                        return Err(Stop { number: 33, place: at.mark });
                    }
                    bound.push(self.function(function.value, pick(&bound, arguments), frames + 1)?);
                    next
                }
                Node::Open { slot, branches } => fitting(at, &mut bound, *slot, branches, true)?,
                Node::Look { slot, branches } => fitting(at, &mut bound, *slot, branches, false)?,
                Node::If { slot, first, second } => {
                    if number(&bound, *slot) != 0 {
                        first
                    } else {
                        second
                    }
                }
                Node::Arithmetic { operation, left, right, next } => {
                    let Some(result) = arithmetic(*operation, number(&bound, *left), number(&bound, *right)) else {
                        return Err(Stop { number: 34, place: at.mark });
                    };
                    bound.push(Value::Number(result));
                    next
                }
                node => simple(node, &mut bound),
            };
        }
    }
}

/// Binds the value of a node that binds one without a call, and gives the term after it.
fn simple<'a>(node: &'a Node, bound: &mut Vec<Value>) -> &'a Term {
    let (value, next) = match node {
        Node::Atom { constructor, next } => (tree(constructor.value, Vec::new()), next),
        Node::Make { constructor, fields, next, .. } => (tree(constructor.value, pick(bound, fields)), next),
        Node::Number { constant, next } => (Value::Number(*constant), next),
        _ => panic!("a node that binds one value"),
    };
    bound.push(value);
    next
}

/// A tree as a value.
fn tree(constructor: usize, fields: Vec<Value>) -> Value {
    Value::Tree(Rc::new(Tree { constructor, fields }))
}

/// The term of the branch that fits, with what it binds bound.
fn fitting<'a>(at: &Term, bound: &mut Vec<Value>, slot: Byte, branches: &'a [Branch], open: bool) -> Result<&'a Term, Stop> {
    let Value::Tree(tree) = bound[slot.value].clone() else { panic!("a tree is opened") };
    match branches.iter().find(|branch| branch.constructor.value == tree.constructor) {
        None => Err(Stop { number: 31, place: at.mark }),
        Some(branch) => {
            bound.extend(tree.fields.iter().cloned());
            if open && !tree.fields.is_empty() {
                bound.push(Value::Credit);
            }
            Ok(&branch.term)
        }
    }
}

/// The values of some slots.
fn pick(bound: &[Value], slots: &[Byte]) -> Vec<Value> {
    slots.iter().map(|slot| bound[slot.value].clone()).collect()
}

/// The number in a slot.
fn number(bound: &[Value], slot: Byte) -> u32 {
    let Value::Number(number) = bound[slot.value] else { panic!("a number is read") };
    number
}

/// The result of an AR; nothing if the exact sum or difference is outside 0 to 65,535.
pub fn arithmetic(operation: usize, left: u32, right: u32) -> Option<u32> {
    let (left, right) = (i64::from(left), i64::from(right));
    let exact = match operation {
        0 => left + right,
        1 => left - right,
        2 => i64::from(left < right),
        3 => i64::from(left == right),
        _ => panic!("an operation from 0 to 3"),
    };
    (0..=65_535).contains(&exact).then_some(exact as u32)
}
