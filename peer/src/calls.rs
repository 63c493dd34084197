//! The square of calls, and what it says: which functions are reached, whether the file is flat, and how deep it is.

use crate::{FUNCTIONS, Verdict};

/// Who calls whom: a row of bits for each caller, once for TL and once for CL.
pub struct Square {
    tail: [u32; FUNCTIONS],
    waiting: [u32; FUNCTIONS],
}

impl Square {
    /// A square without calls.
    pub fn new() -> Square {
        Square { tail: [0; FUNCTIONS], waiting: [0; FUNCTIONS] }
    }

    /// Notes a TL.
    pub fn add_tail(&mut self, caller: usize, called: u8) {
        self.tail[caller & 31] |= 1 << (called & 31);
    }

    /// Notes a CL.
    pub fn add_waiting(&mut self, caller: usize, called: u8) {
        self.waiting[caller & 31] |= 1 << (called & 31);
    }

    /// The verdict on a file with these calls: each level holds the functions that some walk from function 0 ends in with one CL more.
    pub fn verdict(&self) -> Verdict {
        let reached = closure(1, |function| self.tail[function] | self.waiting[function]).count_ones();
        let mut level = closure(1, |function| self.tail[function]);
        let mut depth = 1;
        loop {
            let called = gather(level, |function| self.waiting[function]);
            if called == 0 {
                return Verdict::Flat { depth, reached };
            }
            if depth == reached {
                return Verdict::Stacked { reached };
            }
            level = closure(called, |function| self.tail[function]);
            depth += 1;
        }
    }
}

/// The union of the rows of all functions in a set.
fn gather(set: u32, row: impl Fn(usize) -> u32) -> u32 {
    let mut left = set;
    let mut union = 0;
    while left != 0 {
        union |= row(left.trailing_zeros() as usize);
        left &= left - 1;
    }
    union
}

/// The least set that holds the given one and the rows of all its members.
fn closure(set: u32, row: impl Fn(usize) -> u32) -> u32 {
    let mut closed = set;
    let mut fresh = set;
    while fresh != 0 {
        let next = gather(fresh, &row) & !closed;
        closed |= next;
        fresh = next;
    }
    closed
}
