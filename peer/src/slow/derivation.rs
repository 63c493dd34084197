//! Acceptance by the derivation rules of document 000, figure 4, with all splittings of the owned context tried.

use super::tree::{Branch, Byte, Function, Mode, Node, Rules, Sort, Term};
use std::collections::BTreeSet;

/// Something in the owned context: a variable, or a credit with its size.
#[derive(Clone, Copy, Debug, PartialEq, Eq)]
enum Thing {
    Variable(usize),
    Credit(usize, usize),
}

/// What a term stands under: the numbers, the borrowed set, the owned context, and the name that is bound next.
#[derive(Clone, Debug)]
struct Context {
    numbers: BTreeSet<usize>,
    borrowed: BTreeSet<usize>,
    owned: Vec<Thing>,
    next: usize,
}

/// A value in an argument or field list.
#[derive(Clone, Copy)]
enum Value {
    Number(usize),
    Variable(usize),
}

/// The expressions that a LET can bind.
enum Expression<'a> {
    Number(&'a [usize]),
    Atom,
    Make { credit: usize, values: Vec<Value> },
    Call { function: &'a Function, arguments: &'a [Byte] },
}

/// Whether every body has a derivation; nothing if an owned context of more than `most` things would have to be split.
pub fn derives(rules: &Rules, most: usize) -> Option<bool> {
    let mut search = Search { rules, most, passed: false };
    let derived = rules.functions.iter().zip(&rules.bodies).all(|(function, body)| {
        let mut context = Context { numbers: BTreeSet::new(), borrowed: BTreeSet::new(), owned: Vec::new(), next: 0 };
        for mode in &function.modes {
            context.bind(*mode);
        }
        search.term(function.result, body, &context)
    });
    if search.passed { None } else { Some(derived) }
}

impl Context {
    /// Binds the next name as a number, borrowed or owned.
    fn bind(&mut self, mode: Mode) {
        match mode {
            Mode::Number => drop(self.numbers.insert(self.next)),
            Mode::Lent => drop(self.borrowed.insert(self.next)),
            Mode::Owned => self.owned.push(Thing::Variable(self.next)),
        }
        self.next += 1;
    }

    /// Binds the fields of a constructor, with trees as the mode says.
    fn bind_fields(&mut self, sorts: &[Sort], tree: Mode) {
        for sort in sorts {
            self.bind(if *sort == Sort::Number { Mode::Number } else { tree });
        }
    }
}

/// The search for a derivation.
struct Search<'a> {
    rules: &'a Rules,
    most: usize,
    passed: bool,
}

impl Search<'_> {
    /// Whether a term has a derivation under a context.
    fn term(&mut self, result: Sort, term: &Term, context: &Context) -> bool {
        match &term.node {
            Node::Give { slot } => value(result_value(result, slot.value), context, &context.owned),
            Node::Tail { function, arguments } => {
                let function = &self.rules.functions[function.value];
                function.result == result && call(function, arguments, context, &context.borrowed, &context.owned)
            }
            Node::Atom { next, .. } => self.binding(result, Expression::Atom, Mode::Owned, next, context),
            Node::Number { next, .. } => self.binding(result, Expression::Number(&[]), Mode::Number, next, context),
            Node::Arithmetic { left, right, next, .. } => {
                self.binding(result, Expression::Number(&[left.value, right.value]), Mode::Number, next, context)
            }
            Node::Make { constructor, credit, fields, next } => {
                let sorts = &self.rules.constructors[constructor.value];
                let values = sorts.iter().zip(fields).map(|(sort, field)| result_value(*sort, field.value)).collect();
                self.binding(result, Expression::Make { credit: credit.value, values }, Mode::Owned, next, context)
            }
            Node::Call { function, arguments, next } => {
                let function = &self.rules.functions[function.value];
                let mode = if function.result == Sort::Number { Mode::Number } else { Mode::Owned };
                self.binding(result, Expression::Call { function, arguments }, mode, next, context)
            }
            Node::Open { slot, branches } => self.open(result, slot.value, branches, context),
            Node::Look { slot, branches } => self.look(result, slot.value, branches, context),
            Node::If { slot, first, second } => {
                context.numbers.contains(&slot.value) && self.term(result, first, context) && self.term(result, second, context)
            }
        }
    }

    /// LET: some part of the owned context derives the expression, of the rest some may be borrowed for it, and the rest with the bound name derives the term.
    fn binding(&mut self, result: Sort, bound: Expression, mode: Mode, next: &Term, context: &Context) -> bool {
        if context.owned.len() > self.most {
            self.passed = true;
            return false;
        }
        splits(&context.owned).any(|(first, rest)| {
            let derived = splits(&rest).any(|(second, _)| {
                let mut borrowed = context.borrowed.clone();
                variables(&second).is_some_and(|names| {
                    borrowed.extend(names);
                    expression(&bound, context, &borrowed, &first)
                })
            });
            let mut after = Context { owned: rest, ..context.clone() };
            after.bind(mode);
            derived && self.term(result, next, &after)
        })
    }

    /// DMATCH!, with EMPTY for atoms.
    fn open(&mut self, result: Sort, slot: usize, branches: &[Branch], context: &Context) -> bool {
        let owned: Vec<Thing> = context.owned.iter().copied().filter(|thing| *thing != Thing::Variable(slot)).collect();
        owned.len() + 1 == context.owned.len()
            && each_once(branches)
            && branches.iter().all(|branch| {
                let sorts = &self.rules.constructors[branch.constructor.value];
                let mut inside = Context { owned: owned.clone(), ..context.clone() };
                inside.bind_fields(sorts, Mode::Owned);
                if !sorts.is_empty() {
                    inside.owned.push(Thing::Credit(inside.next, sorts.len()));
                    inside.next += 1;
                }
                self.term(result, &branch.term, &inside)
            })
    }

    /// BMATCH.
    fn look(&mut self, result: Sort, slot: usize, branches: &[Branch], context: &Context) -> bool {
        context.borrowed.contains(&slot)
            && each_once(branches)
            && branches.iter().all(|branch| {
                let mut inside = context.clone();
                inside.bind_fields(&self.rules.constructors[branch.constructor.value], Mode::Lent);
                self.term(result, &branch.term, &inside)
            })
    }
}

/// Answer 12's rule.
fn each_once(branches: &[Branch]) -> bool {
    let constructors: BTreeSet<usize> = branches.iter().map(|branch| branch.constructor.value).collect();
    constructors.len() == branches.len()
}

/// A slot as a value of a sort.
fn result_value(sort: Sort, slot: usize) -> Value {
    if sort == Sort::Number { Value::Number(slot) } else { Value::Variable(slot) }
}

/// VAR for trees; a number stands as an atom does, under nothing owned.
fn value(value: Value, context: &Context, owned: &[Thing]) -> bool {
    match value {
        Value::Number(slot) => context.numbers.contains(&slot) && owned.is_empty(),
        Value::Variable(slot) => owned == [Thing::Variable(slot)],
    }
}

/// ATOM, REUSE and CALL under a part of the owned context.
fn expression(bound: &Expression, context: &Context, borrowed: &BTreeSet<usize>, owned: &[Thing]) -> bool {
    match bound {
        Expression::Number(slots) => owned.is_empty() && slots.iter().all(|slot| context.numbers.contains(slot)),
        Expression::Atom => owned.is_empty(),
        Expression::Make { credit, values } => {
            let spent = Thing::Credit(*credit, values.len());
            let rest: Vec<Thing> = owned.iter().copied().filter(|thing| *thing != spent).collect();
            rest.len() + 1 == owned.len() && tuple(values, context, &rest)
        }
        Expression::Call { function, arguments } => call(function, arguments, context, borrowed, owned),
    }
}

/// CALL: lent parameters take borrowed names, the others a tuple under the owned context.
fn call(function: &Function, arguments: &[Byte], context: &Context, borrowed: &BTreeSet<usize>, owned: &[Thing]) -> bool {
    let mut values = Vec::new();
    for (mode, argument) in function.modes.iter().zip(arguments) {
        match mode {
            Mode::Number => values.push(Value::Number(argument.value)),
            Mode::Owned => values.push(Value::Variable(argument.value)),
            Mode::Lent if borrowed.contains(&argument.value) => {}
            Mode::Lent => return false,
        }
    }
    tuple(&values, context, owned)
}

/// TUPLE: the owned context splits into one part for each value.
fn tuple(values: &[Value], context: &Context, owned: &[Thing]) -> bool {
    match values.split_first() {
        None => owned.is_empty(),
        Some((first, others)) => splits(owned).any(|(part, rest)| value(*first, context, &part) && tuple(others, context, &rest)),
    }
}

/// The names of things that are all variables.
fn variables(things: &[Thing]) -> Option<Vec<usize>> {
    let name = |thing: &Thing| if let Thing::Variable(slot) = thing { Some(*slot) } else { None };
    things.iter().map(name).collect()
}

/// All ways to split things into two parts.
fn splits(things: &[Thing]) -> impl Iterator<Item = (Vec<Thing>, Vec<Thing>)> {
    (0..1u32 << things.len()).map(|choice| {
        let mut parts = (Vec::new(), Vec::new());
        for (index, thing) in things.iter().enumerate() {
            if choice >> index & 1 == 1 { parts.0.push(*thing) } else { parts.1.push(*thing) }
        }
        parts
    })
}
