//! The constructors and functions that a file declares.

use crate::{CONSTRUCTORS, FUNCTIONS};

/// A constructor: its arity, and a bit for each field that is a tree.
#[derive(Clone, Copy, Default)]
pub struct Constructor {
    pub arity: u8,
    pub trees: u8,
}

impl Constructor {
    /// Whether the field at this index is a tree.
    pub fn is_tree(self, index: usize) -> bool {
        self.trees >> index & 1 == 1
    }
}

/// How a parameter takes its argument.
#[derive(Clone, Copy, Default, PartialEq, Eq)]
pub enum Mode {
    #[default]
    Number,
    Lent,
    Owned,
}

/// A function: how its parameters take their arguments, and whether its result is a tree.
#[derive(Clone, Copy, Default)]
pub struct Function {
    pub count: u8,
    pub modes: [Mode; 8],
    pub result_tree: bool,
}

impl Function {
    /// The modes of the parameters in order.
    pub fn modes(&self) -> &[Mode] {
        &self.modes[..usize::from(self.count.min(8))]
    }
}

/// Everything declared before the first body.
pub struct Declared {
    constructors: [Constructor; CONSTRUCTORS],
    constructor_count: usize,
    functions: [Function; FUNCTIONS],
    function_count: usize,
}

impl Declared {
    /// A table with nothing in it.
    pub fn new() -> Declared {
        Declared {
            constructors: [Constructor::default(); CONSTRUCTORS],
            constructor_count: 0,
            functions: [Function::default(); FUNCTIONS],
            function_count: 0,
        }
    }

    /// Adds a constructor, or says that the limit is passed.
    pub fn add_constructor(&mut self, constructor: Constructor) -> bool {
        let Some(entry) = self.constructors.get_mut(self.constructor_count) else { return false };
        *entry = constructor;
        self.constructor_count += 1;
        true
    }

    /// Adds a function, or says that the limit is passed.
    pub fn add_function(&mut self, function: Function) -> bool {
        let Some(entry) = self.functions.get_mut(self.function_count) else { return false };
        *entry = function;
        self.function_count += 1;
        true
    }

    /// The constructor with this number, if it is declared.
    #[inline(always)]
    pub fn constructor(&self, number: u32) -> Option<Constructor> {
        let declared = &self.constructors[..self.constructor_count.min(CONSTRUCTORS)];
        declared.get(number as usize).copied()
    }

    /// The function with this number, if it is declared.
    #[inline(always)]
    pub fn function(&self, number: u8) -> Option<&Function> {
        self.functions[..self.function_count.min(FUNCTIONS)].get(usize::from(number))
    }

    /// How many functions are declared.
    pub fn function_count(&self) -> usize {
        self.function_count
    }
}
