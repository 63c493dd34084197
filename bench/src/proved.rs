//! The proved library behind functions that are safe to call.
#![allow(unsafe_code)]

use peer::{Answer, Verdict};

/// The library's own functions: numbers pass as themselves, slices as pointer and length, arrays as a pointer.
#[cfg(proved_library)]
mod library {
    unsafe extern "C" {
        pub fn base_check(file: *const u8, file_length: usize, out: *mut [u32; 4]);
        pub fn base_run(
            file: *const u8,
            file_length: usize,
            arguments: *const u32,
            arguments_length: usize,
            store: *mut u32,
            store_length: usize,
            work: *mut u32,
            work_length: usize,
            budget: u32,
            out: *mut [u32; 5],
        );
    }
}

/// Whether the library is linked.
pub const PRESENT: bool = cfg!(proved_library);

/// The proved checker.
#[cfg(proved_library)]
pub fn check(file: &[u8]) -> Verdict {
    let mut out = [0; 4];
    // SAFETY: the file's pointer and length are those of a live slice, `out` is a live array, and the library keeps neither.
    unsafe { library::base_check(file.as_ptr(), file.len(), &raw mut out) };
    match out {
        [0, depth, reached, 0] => Verdict::Flat { depth, reached },
        [1, reached, 0, 0] => Verdict::Stacked { reached },
        [2, number, place, 0] => Verdict::Refused { number, place },
        _ => panic!("an odd verdict: {out:?}"),
    }
}

/// The proved machine.
#[cfg(proved_library)]
pub fn run(file: &[u8], arguments: &[u32], store: &mut [u32], work: &mut [u32], budget: u32) -> Answer {
    let mut out = [0; 5];
    // SAFETY: each pointer and length are those of a live slice, `out` is a live array, what is written to is borrowed as mutable, and the library keeps nothing.
    unsafe {
        library::base_run(
            file.as_ptr(),
            file.len(),
            arguments.as_ptr(),
            arguments.len(),
            store.as_mut_ptr(),
            store.len(),
            work.as_mut_ptr(),
            work.len(),
            budget,
            &raw mut out,
        );
    }
    let [number, value, steps, place, frames] = out;
    Answer { number, value, steps, place, frames }
}

/// Stands in for the proved checker when it is not linked.
#[cfg(not(proved_library))]
pub fn check(_file: &[u8]) -> Verdict {
    panic!("built without BASE_LIBRARY");
}

/// Stands in for the proved machine when it is not linked.
#[cfg(not(proved_library))]
pub fn run(_file: &[u8], _arguments: &[u32], _store: &mut [u32], _work: &mut [u32], _budget: u32) -> Answer {
    panic!("built without BASE_LIBRARY");
}
