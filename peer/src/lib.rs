//! An implementation of document 01 in plain safe Rust that shares nothing with the proved one: the checker, the machine, and slow second formulations of both.
#![forbid(unsafe_code)]

pub mod agreement;
mod calls;
mod check;
mod declared;
mod machine;
mod marks;
mod program;
mod start;

pub mod input;
pub mod random;
pub mod slow;
pub mod text;

pub use check::check;
pub use machine::run;

/// The most bytes a file may have.
pub const FILE_BYTES: usize = 4096;
/// The most constructors a file may declare.
pub const CONSTRUCTORS: usize = 64;
/// The most functions a file may declare.
pub const FUNCTIONS: usize = 32;
/// The most slots on any path.
pub const SLOTS: usize = 32;
/// The most nodes on any path.
pub const NODES: usize = 64;
/// The most frames that stand at once.
pub const FRAMES: usize = 32;
/// The words of one cell.
pub const CELL_WORDS: usize = 5;
/// The most cells of a store.
pub const CELLS: usize = 1024;
/// The least words of a work area, all of which a run leaves zero.
pub const WORK_WORDS: usize = 4096;
/// The tree word of cell 0.
pub const FIRST_CELL: u32 = 65_536;

/// What the checker says of a file.
#[derive(Clone, Copy, Debug, PartialEq, Eq)]
pub enum Verdict {
    Flat { depth: u32, reached: u32 },
    Stacked { reached: u32 },
    Refused { number: u32, place: u32 },
}

/// The five fields that a run gives back.
#[derive(Clone, Copy, Debug, Default, PartialEq, Eq)]
pub struct Answer {
    pub number: u32,
    pub value: u32,
    pub steps: u32,
    pub place: u32,
    pub frames: u32,
}

/// An answer from 1 to 24 with the place it names.
#[derive(Clone, Copy, Debug, PartialEq, Eq)]
pub struct Refusal {
    pub number: u8,
    pub place: u16,
}

impl Refusal {
    /// The refusal with this number at this place.
    pub fn new(number: u8, place: usize) -> Refusal {
        Refusal { number, place: place as u16 }
    }
}

impl From<Refusal> for Verdict {
    /// A refusal as a verdict.
    fn from(refusal: Refusal) -> Verdict {
        Verdict::Refused { number: refusal.number.into(), place: refusal.place.into() }
    }
}

impl From<Refusal> for Answer {
    /// A refusal as the answer of a run.
    fn from(refusal: Refusal) -> Answer {
        Answer { number: refusal.number.into(), place: refusal.place.into(), ..Answer::default() }
    }
}
