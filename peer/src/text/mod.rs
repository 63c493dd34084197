//! Files as text: records by their marks, with names for constructors, functions and slots.
//!
//! ```text
//! CN nil
//! CN cons number tree
//! FN reverse owned list owned done -> tree
//! BD reverse
//!   OP list {
//!     BR nil
//!       GV done
//!     BR cons head rest room
//!       MK cons room head done as grown
//!       TL reverse rest grown
//!   }
//! ND
//! ```
//!
//! What a record binds is named after `as`, what a branch binds after its constructor; `_` is no name. `IF number` is followed
//! by a term, `else` and a term. Operations are `add`, `subtract`, `smaller` and `equal`. A number behind `#` stands for itself
//! wherever a name could stand. A comment runs from `;` to the end of its line.

mod assemble;
mod disassemble;

pub use assemble::assemble;
pub use disassemble::disassemble;

/// The operations of AR in the order of their numbers.
const OPERATIONS: [&str; 4] = ["add", "subtract", "smaller", "equal"];
/// The sorts in the order of their numbers.
const SORTS: [&str; 2] = ["number", "tree"];
/// The modes in the order of their numbers.
const MODES: [&str; 3] = ["number", "lent", "owned"];

/// Why a text can't be read, and where; lines and columns count from 1.
#[derive(Clone, Debug, PartialEq, Eq)]
pub struct Fault {
    pub line: usize,
    pub column: usize,
    pub reason: String,
}

impl std::fmt::Display for Fault {
    /// Writes line, column and reason.
    fn fmt(&self, formatter: &mut std::fmt::Formatter) -> std::fmt::Result {
        write!(formatter, "line {} column {}: {}", self.line, self.column, self.reason)
    }
}
