//! Functions that do something useful over lists and trees, for files to be built from.

use super::grow::{Shapes, Signature};
use crate::slow::tree::{Mode, Sort};

/// The empty list and tree.
pub const NIL: u8 = 0;
/// A number and a list.
pub const CONS: u8 = 1;
/// Two trees.
pub const NODE: u8 = 2;

/// A function: its parameters and result, and its body for the number it gets.
pub struct Known {
    pub modes: &'static [Mode],
    pub result: Sort,
    pub body: fn(u8) -> Vec<u8>,
}

/// The constructors that the functions need.
pub fn constructors() -> Vec<Vec<Sort>> {
    vec![vec![], vec![Sort::Number, Sort::Tree], vec![Sort::Tree, Sort::Tree]]
}

/// All functions.
pub const KNOWN: [Known; 6] = [
    Known { modes: &[Mode::Owned, Mode::Owned], result: Sort::Tree, body: reverse },
    Known { modes: &[Mode::Lent, Mode::Number], result: Sort::Number, body: sum },
    Known { modes: &[Mode::Owned, Mode::Number], result: Sort::Tree, body: raise },
    Known { modes: &[Mode::Number, Mode::Number], result: Sort::Number, body: count },
    Known { modes: &[Mode::Owned, Mode::Lent], result: Sort::Tree, body: weigh },
    Known { modes: &[Mode::Number; 8], result: Sort::Number, body: turn },
];

/// Joins records to a body.
fn join(records: &[&[u8]]) -> Vec<u8> {
    records.concat()
}

/// Reverses the first list onto the second.
#[rustfmt::skip]
fn reverse(number: u8) -> Vec<u8> {
    join(&[
        b"OP", &[0, 3], b"BR", &[NIL], b"GV", &[1],
        b"BR", &[CONS], b"MK", &[CONS, 4, 2, 1], b"TL", &[number, 3, 5],
        b"BR", &[NODE], b"MK", &[NODE, 4, 3, 1], b"TL", &[number, 2, 5],
    ])
}

/// Adds the numbers of a lent list or tree to a number.
#[rustfmt::skip]
fn sum(number: u8) -> Vec<u8> {
    join(&[
        b"LK", &[0, 3], b"BR", &[NIL], b"GV", &[1],
        b"BR", &[CONS], b"AR", &[0, 1, 2], b"TL", &[number, 3, 4],
        b"BR", &[NODE], b"CL", &[number, 2, 1], b"TL", &[number, 3, 4],
    ])
}

/// Adds a number to each number of a list or tree, in place.
#[rustfmt::skip]
fn raise(number: u8) -> Vec<u8> {
    join(&[
        b"OP", &[0, 3], b"BR", &[NIL], b"AT", &[NIL], b"GV", &[2],
        b"BR", &[CONS], b"CL", &[number, 3, 1], b"AR", &[0, 2, 1], b"MK", &[CONS, 4, 6, 5], b"GV", &[7],
        b"BR", &[NODE], b"CL", &[number, 2, 1], b"CL", &[number, 3, 1], b"MK", &[NODE, 4, 6, 5], b"GV", &[7],
    ])
}

/// Counts a number down, and adds up what it passes.
fn count(number: u8) -> Vec<u8> {
    join(&[b"IF", &[0], b"NU", &[0, 1], b"AR", &[1, 0, 2], b"AR", &[0, 1, 0], b"TL", &[number, 3, 4], b"GV", &[1]])
}

/// Adds one to the first number of a list if the lent tree is an atom.
#[rustfmt::skip]
fn weigh(_number: u8) -> Vec<u8> {
    join(&[
        b"LK", &[1, 2],
        b"BR", &[NIL], b"OP", &[0, 2],
        b"BR", &[NIL], b"AT", &[NIL], b"GV", &[2],
        b"BR", &[CONS], b"NU", &[0, 1], b"AR", &[0, 2, 5], b"MK", &[CONS, 4, 6, 3], b"GV", &[7],
        b"BR", &[CONS], b"GV", &[0],
    ])
}

/// Turns seven numbers round as often as the first argument says, and gives the difference of two of them.
#[rustfmt::skip]
fn turn(number: u8) -> Vec<u8> {
    join(&[
        b"IF", &[0], b"NU", &[0, 1], b"AR", &[1, 0, 8], b"TL", &[number, 9, 2, 3, 4, 5, 6, 7, 1],
        b"AR", &[1, 1, 7], b"GV", &[8],
    ])
}

/// Adds all functions to some shapes.
pub fn add(shapes: &mut Shapes) {
    for known in &KNOWN {
        shapes.functions.push(Signature { modes: known.modes.to_vec(), result: known.result });
    }
}
