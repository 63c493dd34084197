//! From bytes to text.

use super::{MODES, OPERATIONS, SORTS};
use crate::Refusal;
use crate::slow::tree::{Branch, Byte, Node, Rules, Term, read};

/// The text of a file that can be read, or its refusal from 1 to 6.
pub fn disassemble(file: &[u8]) -> Result<String, Refusal> {
    let rules = read(file)?;
    let mut writer = Writer { rules: &rules, text: String::new() };
    for (number, sorts) in rules.constructors.iter().enumerate() {
        let sorts: String = sorts.iter().map(|sort| format!(" {}", SORTS[*sort as usize])).collect();
        writer.line(0, &format!("CN {}{sorts}", constructor(number)));
    }
    for (number, function) in rules.functions.iter().enumerate() {
        let parameters =
            function.modes.iter().enumerate().map(|(slot, mode)| format!(" {} {}", MODES[*mode as usize], name(slot)));
        writer.line(0, &format!("FN f{number}{} -> {}", parameters.collect::<String>(), SORTS[function.result as usize]));
    }
    for (number, body) in rules.bodies.iter().enumerate() {
        writer.line(0, &format!("BD f{number}"));
        writer.term(body, rules.functions[number].modes.len(), 1);
    }
    writer.line(0, "ND");
    Ok(writer.text)
}

/// The text so far.
struct Writer<'a> {
    rules: &'a Rules,
    text: String,
}

/// The name of a constructor.
fn constructor(number: usize) -> String {
    format!("c{number}")
}

/// The name of a slot.
fn name(slot: usize) -> String {
    format!("s{slot}")
}

/// The name of a slot if it is bound, and otherwise its number.
fn slot(byte: Byte, bound: usize) -> String {
    if byte.value < bound { name(byte.value) } else { format!("#{}", byte.value) }
}

/// The names of some slots, each with a space before it.
fn slots(bytes: &[Byte], bound: usize) -> String {
    bytes.iter().map(|byte| format!(" {}", slot(*byte, bound))).collect()
}

impl Writer<'_> {
    /// Writes a line at a depth.
    fn line(&mut self, depth: usize, text: &str) {
        self.text.push_str(&"  ".repeat(depth));
        self.text.push_str(text);
        self.text.push('\n');
    }

    /// Writes a term with so many slots bound.
    fn term(&mut self, term: &Term, bound: usize, depth: usize) {
        match &term.node {
            Node::Give { slot: given } => self.line(depth, &format!("GV {}", slot(*given, bound))),
            Node::Tail { function, arguments } => {
                self.line(depth, &format!("TL f{}{}", function.value, slots(arguments, bound)));
            }
            Node::Open { slot, branches } => self.list("OP", *slot, branches, bound, depth),
            Node::Look { slot, branches } => self.list("LK", *slot, branches, bound, depth),
            Node::If { slot: tested, first, second } => {
                self.line(depth, &format!("IF {}", slot(*tested, bound)));
                self.term(first, bound, depth + 1);
                self.line(depth, "else");
                self.term(second, bound, depth + 1);
            }
            node => {
                let (text, next) = binding(node, bound);
                self.line(depth, &format!("{text} as {}", name(bound)));
                self.term(next, bound + 1, depth);
            }
        }
    }

    /// Writes a list of branches.
    fn list(&mut self, mark: &str, looked: Byte, branches: &[Branch], bound: usize, depth: usize) {
        self.line(depth, &format!("{mark} {} {{", slot(looked, bound)));
        for branch in branches {
            let arity = self.rules.constructors[branch.constructor.value].len();
            let inside = bound + arity + usize::from(mark == "OP" && arity > 0);
            let names: String = (bound..inside).map(|slot| format!(" {}", name(slot))).collect();
            self.line(depth + 1, &format!("BR {}{names}", constructor(branch.constructor.value)));
            self.term(&branch.term, inside, depth + 2);
        }
        self.line(depth, "}");
    }
}

/// A node that binds one slot, up to its name, and the term after it.
fn binding(node: &Node, bound: usize) -> (String, &Term) {
    match node {
        Node::Atom { constructor: atom, next } => (format!("AT {}", constructor(atom.value)), next),
        Node::Make { constructor: made, credit, fields, next } => {
            (format!("MK {} {}{}", constructor(made.value), slot(*credit, bound), slots(fields, bound)), next)
        }
        Node::Call { function, arguments, next } => (format!("CL f{}{}", function.value, slots(arguments, bound)), next),
        Node::Number { constant, next } => (format!("NU {constant}"), next),
        Node::Arithmetic { operation, left, right, next } => {
            (format!("AR {}{}", OPERATIONS[*operation], slots(&[*left, *right], bound)), next)
        }
        _ => panic!("a node that binds one slot"),
    }
}
