//! What is measured: files with their starts, and loops that do the same without a machine.

use peer::CELL_WORDS;
use peer::random::grow::{Shapes, Signature, declarations};
use peer::random::known::{KNOWN, constructors};
use peer::random::limits::{giving_back, with_bytes};
use peer::slow::tree::{Mode, Sort};
use std::hint::black_box;

/// The tree word of cell 0.
const FIRST_CELL: u32 = 65_536;

/// The reversal file of document 01.
pub const REVERSAL: &[u8] =
    b"CN\x00CN\x02\x00\x01FN\x02\x02\x02\x01BDOP\x00\x02BR\x00GV\x01BR\x01MK\x01\x04\x02\x01TL\x00\x03\x05ND";

/// A file that counts its first argument down and its second up.
const COUNT: &[u8] = b"FN\x02\x00\x00\x00BDIF\x00NU\x00\x01AR\x01\x00\x02AR\x00\x01\x02TL\x00\x03\x04GV\x01ND";

/// A file that calls itself twice for each number from 2 on.
const FIBONACCI: &[u8] = b"FN\x01\x00\x00BDNU\x00\x02AR\x02\x00\x01IF\x02GV\x00\
    NU\x00\x01AR\x01\x00\x03CL\x00\x04AR\x01\x00\x01CL\x00\x06AR\x00\x05\x07GV\x08ND";

/// A run that is measured; with `again` its value is the first argument of the next run.
pub struct Workload {
    pub name: String,
    pub file: Vec<u8>,
    pub arguments: Vec<u32>,
    pub store: Vec<u32>,
    pub budget: u32,
    pub again: bool,
    pub native: Option<Box<dyn FnMut() -> u32>>,
}

/// A list of so many cells in order, whose constructor has the number 1 and a number and a tree.
pub fn list(cells: usize) -> Vec<u32> {
    let next = |cell: u32| if cell as usize + 1 == cells { 0 } else { FIRST_CELL + 1 + cell };
    (0..cells as u32).flat_map(|cell| [1, cell, next(cell), 0, 0]).collect()
}

/// All runs that are measured.
pub fn all() -> Vec<Workload> {
    let mut all = vec![reversal(1_000), branches(), calls(), arithmetic()];
    for cells in [16, 64, 256, 1_024] {
        all.push(owned_start(cells));
    }
    for cells in [16, 64, 256, 1_024] {
        all.push(lent_start(cells));
    }
    all.push(Workload { name: "fixed cost: 42 bytes, 2 cells, 8 steps".to_string(), ..reversal(2) });
    all
}

/// The reversal of a list.
fn reversal(cells: usize) -> Workload {
    let mut store: Vec<[u32; CELL_WORDS]> = list(cells).as_chunks().0.to_vec();
    let mut head = FIRST_CELL;
    let native = move || {
        let (mut word, mut reversed) = (head, 0);
        while let Some(cell) = word.checked_sub(FIRST_CELL) {
            let cell = &mut store[cell as usize];
            (reversed, word) = (word, std::mem::replace(&mut cell[2], reversed));
        }
        head = reversed;
        black_box(reversed)
    };
    Workload {
        name: format!("reversal, {cells} cells"),
        file: REVERSAL.to_vec(),
        arguments: vec![FIRST_CELL, 0],
        store: list(cells),
        budget: u32::MAX,
        again: true,
        native: Some(Box::new(native)),
    }
}

/// The branch of an atom: a few nested IF, each with its own constant to add.
fn nested(atom: u32) -> Vec<u8> {
    let mut term = Vec::new();
    for depth in 0..4 {
        term.extend([b'A', b'R', 2, 1, 1, b'I', b'F', 4 + depth]);
        term.extend([b'N', b'U', 0, atom as u8, b'A', b'R', 0, 1, 5 + depth, b'T', b'L', 0, 3, 6 + depth]);
    }
    term.extend([b'N', b'U', 0, atom as u8 + 1, b'A', b'R', 0, 1, 8, b'T', b'L', 0, 3, 9]);
    term
}

/// A walk along a lent list of atoms, with many branches and nested terms to pass over.
fn branches() -> Workload {
    const ATOMS: u32 = 24;
    let mut sorts = vec![vec![]; ATOMS as usize];
    sorts.push(vec![Sort::Tree, Sort::Tree]);
    let function = Signature { modes: vec![Mode::Lent, Mode::Number], result: Sort::Number };
    let mut file = declarations(&Shapes { constructors: sorts, functions: vec![function] });
    file.extend([&b"BDLK\x00\x02BR\x00GV\x01BR"[..], &[ATOMS as u8], b"LK\x02", &[ATOMS as u8]].concat());
    for atom in 0..ATOMS {
        file.extend([b'B', b'R', atom as u8]);
        file.extend(nested(atom));
    }
    file.extend(b"ND");
    let atoms: Vec<u32> = (0..1_000).map(|index| index * 7 % ATOMS).collect();
    let next = |cell: usize| if cell + 1 == atoms.len() { 0 } else { FIRST_CELL + 1 + cell as u32 };
    let store = (0..atoms.len()).flat_map(|cell| [ATOMS, atoms[cell], next(cell), 0, 0]).collect();
    let native = move || black_box(&atoms).iter().fold(0, |total, atom| (total + black_box(*atom) + 1) & 0xFFFF);
    Workload {
        name: "nested branches, 1,000 cells".to_string(),
        file,
        arguments: vec![FIRST_CELL, 0],
        store,
        budget: u32::MAX,
        again: false,
        native: Some(Box::new(native)),
    }
}

/// Two calls for each number.
fn calls() -> Workload {
    /// The same recursion in native code.
    fn fibonacci(number: u32) -> u32 {
        if number < 2 { number } else { (fibonacci(black_box(number) - 1) + fibonacci(black_box(number) - 2)) & 0xFFFF }
    }
    Workload {
        name: "calls, 15 deep".to_string(),
        file: FIBONACCI.to_vec(),
        arguments: vec![15],
        store: vec![],
        budget: u32::MAX,
        again: false,
        native: Some(Box::new(|| black_box(fibonacci(black_box(15))))),
    }
}

/// A countdown.
fn arithmetic() -> Workload {
    let native = || {
        let (mut left, mut total) = (black_box(5_000u32), 0u32);
        while left != 0 {
            total = black_box((total + 1) & 0xFFFF);
            left -= 1;
        }
        total
    };
    Workload {
        name: "arithmetic loop, 5,000 rounds".to_string(),
        file: COUNT.to_vec(),
        arguments: vec![5_000, 0],
        store: vec![],
        budget: u32::MAX,
        again: false,
        native: Some(Box::new(native)),
    }
}

/// A run of one step over an owned list.
fn owned_start(cells: usize) -> Workload {
    Workload {
        name: format!("start check, owned list of {cells} cells"),
        file: giving_back(),
        arguments: vec![FIRST_CELL],
        store: list(cells),
        budget: u32::MAX,
        again: false,
        native: None,
    }
}

/// A run of two steps over a lent tree whose cells have two trees each.
fn lent_start(cells: usize) -> Workload {
    let child = |number: usize| if number < cells { FIRST_CELL + number as u32 } else { 0 };
    Workload {
        name: format!("start check, lent tree of {cells} cells"),
        file: b"CN\x00CN\x02\x01\x01FN\x01\x01\x01BDAT\x00GV\x01ND".to_vec(),
        arguments: vec![FIRST_CELL],
        store: (0..cells).flat_map(|cell| [1, child(2 * cell + 1), child(2 * cell + 2), 0, 0]).collect(),
        budget: u32::MAX,
        again: false,
        native: None,
    }
}

/// A file of exactly so many bytes, at least 512: useful functions, and a last one that makes up the length.
pub fn file_of(length: usize) -> Vec<u8> {
    let count = (length / 110).min(30);
    let signature = |index: usize| {
        let known = &KNOWN[index % KNOWN.len()];
        Signature { modes: known.modes.to_vec(), result: known.result }
    };
    let mut shapes = Shapes { constructors: constructors(), functions: (0..count).map(signature).collect() };
    shapes.functions.push(Signature { modes: vec![Mode::Number], result: Sort::Number });
    let bodies: Vec<u8> =
        (0..count).flat_map(|index| [b"BD".to_vec(), (KNOWN[index % KNOWN.len()].body)(index as u8)].concat()).collect();
    let last = length - declarations(&shapes).len() - bodies.len() - 4;
    [declarations(&shapes), bodies, b"BD".to_vec(), filler(last), b"ND".to_vec()].concat()
}

/// A file like `file_of` whose function 0 reaches nearly all: it calls the first of each kind, and each useful function the next of its kind.
pub fn reached(length: usize) -> Vec<u8> {
    let count = (length / 110).clamp(KNOWN.len(), 29);
    let known = |index: usize| &KNOWN[index % KNOWN.len()];
    let next = |index: usize| if index + KNOWN.len() < count { index + KNOWN.len() } else { index };
    let first = Signature { modes: vec![Mode::Owned, Mode::Lent, Mode::Number], result: Sort::Tree };
    let useful = (0..count).map(|index| Signature { modes: known(index).modes.to_vec(), result: known(index).result });
    let last = Signature { modes: vec![Mode::Number], result: Sort::Number };
    let functions = [first].into_iter().chain(useful).chain([last]).collect();
    let header = declarations(&Shapes { constructors: constructors(), functions });
    let arguments: [&[u8]; 7] = [&[0, 3], &[1, 2], &[4, 5], &[2, 5], &[6, 1], &[2, 5, 7, 2, 5, 7, 2, 5], &[9]];
    let callees = (1..=KNOWN.len()).chain([1 + count]);
    let calls = callees.zip(arguments).flat_map(|(callee, slots)| [b"CL", &[callee as u8][..], slots].concat()).collect();
    let body = |index: usize| [b"BD".to_vec(), (known(index).body)(1 + next(index) as u8)].concat();
    let bodies = [b"BDAT\x00".to_vec(), calls, b"GV\x08".to_vec(), (0..count).flat_map(body).collect()].concat();
    let rest = length - header.len() - bodies.len() - 4;
    [header, bodies, b"BD".to_vec(), filler(rest), b"ND".to_vec()].concat()
}

/// A term of exactly so many bytes over one number slot: a chain of IF whose first terms hold constants and sums.
fn filler(length: usize) -> Vec<u8> {
    let mut term = Vec::new();
    while length - term.len() > 125 {
        term.extend([b'I', b'F', 0]);
        term.extend([b"NU\x01\x02".repeat(12), b"AR\x00\x00\x01".repeat(12), b"GV\x00".to_vec()].concat());
    }
    let rest = length - term.len() - 3;
    let (sums, constants) = (0..4).map(|sums| (sums, rest - 5 * sums)).find(|(_, rest)| rest % 4 == 0).unwrap_or((0, rest));
    term.extend([b"AR\x00\x00\x00".repeat(sums), b"NU\x01\x02".repeat(constants / 4), b"GV\x00".to_vec()].concat());
    term
}

/// The files that checking is measured on.
pub fn files() -> Vec<(String, Vec<u8>)> {
    let mut files = vec![("check, 42 bytes".to_string(), REVERSAL.to_vec())];
    for length in [512, 1_024, 2_048, 4_096] {
        files.push((format!("check, {length} bytes"), file_of(length)));
    }
    for length in [1_024, 2_048, 4_096] {
        files.push((format!("check, {length} bytes, all reached"), reached(length)));
    }
    files.push(("check, 4096 bytes of constants".to_string(), with_bytes(4_096)));
    files
}
