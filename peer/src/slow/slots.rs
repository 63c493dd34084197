//! Ownership by a list of slots that is copied for each branch, with the refusals 7 to 12.

use super::tree::{Branch, Byte, Function, Mode, Node, Rules, Sort, Term};
use crate::Refusal;

/// What a slot was bound as.
#[derive(Clone, Copy, Debug, PartialEq, Eq)]
pub enum Kind {
    Number,
    Lent,
    Owned,
    Credit(usize),
}

/// A slot: its kind, and whether it is used.
#[derive(Clone, Copy, Debug, PartialEq, Eq)]
pub struct Slot {
    pub kind: Kind,
    pub used: bool,
}

impl Slot {
    /// A slot just bound.
    pub fn new(kind: Kind) -> Slot {
        Slot { kind, used: false }
    }

    /// Whether the slot may not be left over.
    pub fn counts(&self) -> bool {
        !self.used && matches!(self.kind, Kind::Owned | Kind::Credit(_))
    }
}

/// The kind of a parameter.
pub fn parameter_kind(mode: Mode) -> Kind {
    match mode {
        Mode::Number => Kind::Number,
        Mode::Lent => Kind::Lent,
        Mode::Owned => Kind::Owned,
    }
}

/// The kind of a result.
pub fn result_kind(sort: Sort) -> Kind {
    if sort == Sort::Number { Kind::Number } else { Kind::Owned }
}

/// The kinds that a branch binds.
pub fn branch_kinds(sorts: &[Sort], open: bool) -> Vec<Kind> {
    let tree = if open { Kind::Owned } else { Kind::Lent };
    let mut kinds: Vec<Kind> = sorts.iter().map(|sort| if *sort == Sort::Number { Kind::Number } else { tree }).collect();
    if open && !sorts.is_empty() {
        kinds.push(Kind::Credit(sorts.len()));
    }
    kinds
}

/// Tests every body in file order.
pub fn track(rules: &Rules) -> Result<(), Refusal> {
    for (function, body) in rules.functions.iter().zip(&rules.bodies) {
        let slots: Vec<Slot> = function.modes.iter().map(|mode| Slot::new(parameter_kind(*mode))).collect();
        term(rules, function.result, body, slots)?;
    }
    Ok(())
}

/// Tests a term that starts from these slots.
fn term(rules: &Rules, result: Sort, at: &Term, mut slots: Vec<Slot>) -> Result<(), Refusal> {
    match &at.node {
        Node::Give { slot } => {
            take(&mut slots, *slot, &[result_kind(result)], true)?;
            nothing_left(&slots, at.mark)
        }
        Node::Atom { next, .. } => follow(rules, result, next, slots, Kind::Owned),
        Node::Make { constructor, credit, fields, next } => {
            make(&mut slots, &rules.constructors[constructor.value], *credit, fields)?;
            follow(rules, result, next, slots, Kind::Owned)
        }
        Node::Call { function, arguments, next } => {
            let function = &rules.functions[function.value];
            hand_over(&mut slots, function, arguments)?;
            follow(rules, result, next, slots, result_kind(function.result))
        }
        Node::Tail { function, arguments } => {
            if rules.functions[function.value].result != result {
                return Err(Refusal::new(8, function.place));
            }
            hand_over(&mut slots, &rules.functions[function.value], arguments)?;
            nothing_left(&slots, at.mark)
        }
        Node::Number { next, .. } => follow(rules, result, next, slots, Kind::Number),
        Node::Arithmetic { left, right, next, .. } => {
            take(&mut slots, *left, &[Kind::Number], false)?;
            take(&mut slots, *right, &[Kind::Number], false)?;
            follow(rules, result, next, slots, Kind::Number)
        }
        node => branching(rules, result, node, slots),
    }
}

/// Tests a node whose terms start from the same slots.
fn branching(rules: &Rules, result: Sort, node: &Node, mut slots: Vec<Slot>) -> Result<(), Refusal> {
    match node {
        Node::Open { slot, branches } => {
            take(&mut slots, *slot, &[Kind::Owned], true)?;
            list(rules, result, branches, &slots, true)
        }
        Node::Look { slot, branches } => {
            take(&mut slots, *slot, &[Kind::Lent], false)?;
            list(rules, result, branches, &slots, false)
        }
        Node::If { slot, first, second } => {
            take(&mut slots, *slot, &[Kind::Number], false)?;
            term(rules, result, first, slots.clone())?;
            term(rules, result, second, slots)
        }
        _ => panic!("a node with several terms"),
    }
}

/// Tests the term after a node that binds one slot.
fn follow(rules: &Rules, result: Sort, next: &Term, mut slots: Vec<Slot>, kind: Kind) -> Result<(), Refusal> {
    slots.push(Slot::new(kind));
    term(rules, result, next, slots)
}

/// Tests a list of branches that start from the same slots.
fn list(rules: &Rules, result: Sort, branches: &[Branch], slots: &[Slot], open: bool) -> Result<(), Refusal> {
    for (index, branch) in branches.iter().enumerate() {
        if branches[..index].iter().any(|earlier| earlier.constructor.value == branch.constructor.value) {
            return Err(Refusal::new(12, branch.constructor.place));
        }
        let mut slots = slots.to_vec();
        slots.extend(branch_kinds(&rules.constructors[branch.constructor.value], open).into_iter().map(Slot::new));
        term(rules, result, &branch.term, slots)?;
    }
    Ok(())
}

/// Takes the credit and the fields of an MK in turn.
pub fn make(slots: &mut [Slot], sorts: &[Sort], credit: Byte, fields: &[Byte]) -> Result<(), Refusal> {
    let kinds: Vec<Kind> = (1..=4).map(Kind::Credit).collect();
    let size = take(slots, credit, &kinds, true)?;
    if size != Kind::Credit(sorts.len()) {
        return Err(Refusal::new(10, credit.place));
    }
    for (sort, field) in sorts.iter().zip(fields) {
        take(slots, *field, &[result_kind(*sort)], *sort == Sort::Tree)?;
    }
    Ok(())
}

/// Takes the arguments of a CL or TL.
pub fn hand_over(slots: &mut [Slot], function: &Function, arguments: &[Byte]) -> Result<(), Refusal> {
    for (index, (mode, argument)) in function.modes.iter().zip(arguments).enumerate() {
        let earlier = arguments[..index].iter().any(|other| other.value == argument.value);
        match mode {
            Mode::Number => take(slots, *argument, &[Kind::Number], false)?,
            Mode::Lent => take(slots, *argument, &[Kind::Lent, Kind::Owned], false)?,
            Mode::Owned => {
                let mut view = slots.to_vec();
                if let Some(slot) = view.get_mut(argument.value) {
                    slot.used |= earlier;
                }
                take(&mut view, *argument, &[Kind::Owned], true)?;
                take(slots, *argument, &[Kind::Owned], true)?
            }
        };
    }
    Ok(())
}

/// Takes a slot that must be of one of some kinds and not used, gives its kind, and makes it used if it is spent.
fn take(slots: &mut [Slot], byte: Byte, kinds: &[Kind], spent: bool) -> Result<Kind, Refusal> {
    let Some(slot) = slots.get_mut(byte.value) else { return Err(Refusal::new(7, byte.place)) };
    if !kinds.contains(&slot.kind) {
        return Err(Refusal::new(8, byte.place));
    }
    if slot.used {
        return Err(Refusal::new(9, byte.place));
    }
    slot.used = spent && slot.kind != Kind::Number;
    Ok(slot.kind)
}

/// Refuses with 11 if an owned slot or a credit is left.
fn nothing_left(slots: &[Slot], mark: usize) -> Result<(), Refusal> {
    if slots.iter().any(Slot::counts) { Err(Refusal::new(11, mark)) } else { Ok(()) }
}
