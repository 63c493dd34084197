//! Files that stand at a limit or one over it.

use super::grow::{Shapes, Signature, declarations};
use crate::slow::tree::{Mode, Sort};

/// A file with these shapes and bodies.
fn file(shapes: &Shapes, bodies: &[Vec<u8>]) -> Vec<u8> {
    let mut bytes = declarations(shapes);
    for body in bodies {
        bytes.extend(b"BD");
        bytes.extend(body);
    }
    bytes.extend(b"ND");
    bytes
}

/// A function of numbers.
fn of_numbers(count: usize) -> Signature {
    Signature { modes: vec![Mode::Number; count], result: Sort::Number }
}

/// A body that binds so many constants and gives the last slot back.
fn constants(before: usize, count: usize) -> Vec<u8> {
    let mut body = b"NU\x01\x02".repeat(count);
    body.extend([b'G', b'V', (before + count - 1) as u8]);
    body
}

/// A file of exactly so many bytes, at least 64: branches full of constants, and constructors that make up the length.
pub fn with_bytes(length: usize) -> Vec<u8> {
    let branches = (length / 64).min(60);
    let signature = Signature { modes: vec![Mode::Lent], result: Sort::Number };
    let mut shapes = Shapes { constructors: vec![vec![]; branches.max(3)], functions: vec![signature] };
    let rest = length - branching(&shapes, branches, branches).len();
    for sorts in shapes.constructors.iter_mut().take(rest % 4) {
        sorts.push(Sort::Number);
    }
    branching(&shapes, branches, branches + rest / 4)
}

/// A file that looks at its argument in so many branches, with so many constants in all of them together.
fn branching(shapes: &Shapes, branches: usize, count: usize) -> Vec<u8> {
    let mut body = vec![b'L', b'K', 0, branches as u8];
    for branch in 0..branches {
        body.extend([b'B', b'R', branch as u8]);
        body.extend(constants(1, count / branches + usize::from(branch < count % branches)));
    }
    file(shapes, &[body])
}

/// A file with so many constructors.
pub fn with_constructors(count: usize) -> Vec<u8> {
    let shapes = Shapes { constructors: vec![vec![]; count], functions: vec![of_numbers(1)] };
    file(&shapes, &[b"GV\x00".to_vec()])
}

/// A file with so many functions, each calling the next.
pub fn with_functions(count: usize) -> Vec<u8> {
    let shapes = Shapes { constructors: vec![], functions: vec![of_numbers(0); count] };
    let body = |index: usize| if index + 1 < count { vec![b'C', b'L', index as u8 + 1, b'G', b'V', 0] } else { constants(0, 1) };
    file(&shapes, &(0..count).map(body).collect::<Vec<_>>())
}

/// A file with so many slots on a path, eight of them parameters.
pub fn with_slots(count: usize) -> Vec<u8> {
    let shapes = Shapes { constructors: vec![], functions: vec![of_numbers(8)] };
    file(&shapes, &[constants(8, count - 8)])
}

/// A file with so many slots on a path up to a branch of OP, and one more by the MK in it.
pub fn with_slots_of_a_branch(count: usize) -> Vec<u8> {
    let constructors = vec![vec![], vec![Sort::Number; 3]];
    let shapes = Shapes { constructors, functions: vec![Signature { modes: vec![Mode::Owned], result: Sort::Tree }] };
    let numbers = count - 4;
    let mut body = b"NU\x00\x07".repeat(numbers - 1);
    let first = numbers as u8;
    body.extend([b'O', b'P', 0, 1, b'B', b'R', 1, b'M', b'K', 1, first + 3, first, first + 1, first + 2, b'G', b'V', first + 4]);
    file(&shapes, &[body])
}

/// A file with so many nodes on a path, most of them IF.
pub fn with_nodes(count: usize) -> Vec<u8> {
    let shapes = Shapes { constructors: vec![], functions: vec![of_numbers(1)] };
    let mut body = Vec::new();
    for _ in 1..count {
        body.extend([b'I', b'F', 0, b'G', b'V', 0]);
    }
    body.extend([b'G', b'V', 0]);
    file(&shapes, &[body])
}

/// A file whose function takes so many arguments.
pub fn with_arguments(count: usize) -> Vec<u8> {
    let shapes = Shapes { constructors: vec![], functions: vec![of_numbers(count)] };
    file(&shapes, &[constants(count, 1)])
}

/// A file with so many constructors and branches.
pub fn with_branches(constructors: usize, count: usize) -> Vec<u8> {
    let shapes = Shapes {
        constructors: vec![vec![]; constructors],
        functions: vec![Signature { modes: vec![Mode::Lent], result: Sort::Number }],
    };
    let mut body = vec![b'L', b'K', 0, count as u8];
    for branch in 0..count {
        body.extend([b'B', b'R', branch.min(constructors - 1) as u8]);
        body.extend(constants(1, 1));
    }
    file(&shapes, &[body])
}

/// A file whose function gives its only argument, an owned tree of numbered cells, back.
pub fn giving_back() -> Vec<u8> {
    let constructors = vec![vec![], vec![Sort::Number, Sort::Tree]];
    let shapes = Shapes { constructors, functions: vec![Signature { modes: vec![Mode::Owned], result: Sort::Tree }] };
    file(&shapes, &[b"GV\x00".to_vec()])
}

/// All files, at the limit and one over it.
pub fn all() -> Vec<Vec<u8>> {
    vec![
        with_bytes(4095),
        with_bytes(4096),
        with_bytes(4097),
        with_constructors(64),
        with_constructors(65),
        with_functions(32),
        with_functions(33),
        with_slots(32),
        with_slots(33),
        with_slots_of_a_branch(31),
        with_slots_of_a_branch(32),
        with_slots_of_a_branch(33),
        with_nodes(64),
        with_nodes(65),
        with_arguments(8),
        with_arguments(9),
        with_branches(64, 64),
        with_branches(64, 65),
        with_branches(10, 64),
        giving_back(),
    ]
}
