//! A plain interpreter in safe Rust that goes by the bytes of an accepted file. It measures the steps alone: it tests neither the file nor the start.

use peer::{Answer, CELL_WORDS, CONSTRUCTORS, FIRST_CELL, FRAMES, FUNCTIONS, SLOTS};

/// What an accepted file declares, and where its terms lie.
pub struct Bytes<'a> {
    file: &'a [u8],
    arities: [u8; CONSTRUCTORS],
    counts: [u8; FUNCTIONS],
    bodies: [u16; FUNCTIONS],
    ends: Vec<u16>,
}

/// A frame that waits for a value.
#[derive(Clone, Copy, Default)]
struct Waiting {
    at: usize,
    bound: usize,
}

impl<'a> Bytes<'a> {
    /// Reads the declarations, and where each term ends.
    pub fn new(file: &'a [u8]) -> Bytes<'a> {
        let mut bytes = Bytes {
            file,
            arities: [0; CONSTRUCTORS],
            counts: [0; FUNCTIONS],
            bodies: [0; FUNCTIONS],
            ends: vec![0; file.len() + 1],
        };
        let (mut at, mut constructors, mut functions, mut bodies) = (0, 0, 0, 0);
        loop {
            match [file[at], file[at + 1]] {
                [b'C', b'N'] => {
                    bytes.arities[constructors] = file[at + 2];
                    constructors += 1;
                    at += 3 + usize::from(file[at + 2]);
                }
                [b'F', b'N'] => {
                    bytes.counts[functions] = file[at + 2];
                    functions += 1;
                    at += 4 + usize::from(file[at + 2]);
                }
                [b'B', b'D'] => {
                    bytes.bodies[bodies] = (at + 2) as u16;
                    bodies += 1;
                    at = bytes.end(at + 2);
                }
                _ => return bytes,
            }
        }
    }

    /// The byte after the term at a place, which is noted for each term within.
    fn end(&mut self, at: usize) -> usize {
        let file = self.file;
        let end = match [file[at], file[at + 1]] {
            [b'G', b'V'] => at + 3,
            [b'T', b'L'] => at + 3 + usize::from(self.counts[usize::from(file[at + 2])]),
            [b'A', b'T'] => self.end(at + 3),
            [b'N', b'U'] => self.end(at + 4),
            [b'A', b'R'] => self.end(at + 5),
            [b'M', b'K'] => self.end(at + 4 + usize::from(self.arities[usize::from(file[at + 2])])),
            [b'C', b'L'] => self.end(at + 3 + usize::from(self.counts[usize::from(file[at + 2])])),
            [b'I', b'F'] => {
                let second = self.end(at + 3);
                self.end(second)
            }
            _ => (0..file[at + 3]).fold(at + 4, |branch, _| self.end(branch + 3)),
        };
        self.ends[at] = end as u16;
        end
    }

    /// Runs function 0 over a store of cells, within a budget of steps.
    pub fn run(&self, arguments: &[u32], cells: &mut [[u32; CELL_WORDS]], slots: &mut [u32], budget: u32) -> Answer {
        let file = self.file;
        let mut waiting = [Waiting::default(); FRAMES];
        let (mut at, mut base, mut bound, mut greatest, mut steps) = (usize::from(self.bodies[0]), 0, arguments.len(), 0, 0);
        slots[..arguments.len()].copy_from_slice(arguments);
        let (number, value) = loop {
            if steps == budget {
                break (32, 0);
            }
            steps += 1;
            let slot = |offset: usize| base + usize::from(file[at + offset]);
            let bind = base + bound;
            match [file[at], file[at + 1]] {
                [b'G', b'V'] => {
                    let value = slots[slot(2)];
                    if base == 0 {
                        break (0, value);
                    }
                    base -= SLOTS;
                    Waiting { at, bound } = waiting[base / SLOTS];
                    slots[base + bound] = value;
                    bound += 1;
                }
                [b'A', b'T'] => {
                    slots[bind] = file[at + 2].into();
                    (at, bound) = (at + 3, bound + 1);
                }
                [b'N', b'U'] => {
                    slots[bind] = u16::from_be_bytes([file[at + 2], file[at + 3]]).into();
                    (at, bound) = (at + 4, bound + 1);
                }
                [b'A', b'R'] => {
                    let (left, right) = (slots[slot(3)], slots[slot(4)]);
                    let result = match file[at + 2] {
                        0 => left.wrapping_add(right),
                        1 => left.wrapping_sub(right),
                        2 => (left < right).into(),
                        _ => (left == right).into(),
                    };
                    if result > 0xFFFF {
                        break (34, 0);
                    }
                    slots[bind] = result;
                    (at, bound) = (at + 5, bound + 1);
                }
                [b'I', b'F'] => {
                    at = if slots[slot(2)] == 0 { self.ends[at + 3].into() } else { at + 3 };
                }
                [b'M', b'K'] => {
                    let arity = usize::from(self.arities[usize::from(file[at + 2])]);
                    let word = slots[slot(3)];
                    let cell = &mut cells[(word - FIRST_CELL) as usize];
                    cell[0] = file[at + 2].into();
                    for index in 0..arity {
                        cell[1 + index] = slots[slot(4 + index)];
                    }
                    slots[bind] = word;
                    (at, bound) = (at + 4 + arity, bound + 1);
                }
                [b'C', b'L'] => {
                    if base + SLOTS == FRAMES * SLOTS {
                        break (33, 0);
                    }
                    let function = usize::from(file[at + 2]);
                    let count = usize::from(self.counts[function]);
                    for index in 0..count {
                        slots[base + SLOTS + index] = slots[slot(3 + index)];
                    }
                    waiting[base / SLOTS] = Waiting { at: at + 3 + count, bound };
                    (at, base, bound) = (self.bodies[function].into(), base + SLOTS, count);
                    greatest = greatest.max(base);
                }
                [b'T', b'L'] => {
                    let function = usize::from(file[at + 2]);
                    let count = usize::from(self.counts[function]);
                    let mut values = [0; 8];
                    for (index, value) in values.iter_mut().enumerate().take(count) {
                        *value = slots[slot(3 + index)];
                    }
                    slots[base..base + count].copy_from_slice(&values[..count]);
                    (at, bound) = (self.bodies[function].into(), count);
                }
                _ => {
                    let word = slots[slot(2)];
                    let constructor = if word < FIRST_CELL { word } else { cells[(word - FIRST_CELL) as usize][0] };
                    let Some(branch) = self.branch(at, constructor) else { break (31, 0) };
                    if word >= FIRST_CELL {
                        let arity = usize::from(self.arities[constructor as usize]);
                        slots[bind..bind + arity].copy_from_slice(&cells[(word - FIRST_CELL) as usize][1..1 + arity]);
                        bound += arity;
                        if file[at] == b'O' {
                            slots[base + bound] = word;
                            bound += 1;
                        }
                    }
                    at = branch;
                }
            }
        };
        let place = if number == 0 { 0 } else { at as u32 };
        Answer { number, value, steps, place, frames: (greatest / SLOTS + 1) as u32 }
    }

    /// The term of the branch for a constructor in the list of the node at a place.
    fn branch(&self, at: usize, constructor: u32) -> Option<usize> {
        let mut branch = at + 4;
        for _ in 0..self.file[at + 3] {
            if u32::from(self.file[branch + 2]) == constructor {
                return Some(branch + 3);
            }
            branch = self.ends[branch + 3].into();
        }
        None
    }
}
