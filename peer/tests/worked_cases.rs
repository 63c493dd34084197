//! The worked cases P1 to P14 of document 01.

use peer::{Answer, Verdict, WORK_WORDS, check, run};

/// The reversal file.
const REVERSAL: [u8; 42] = [
    0x43, 0x4E, 0x00, 0x43, 0x4E, 0x02, 0x00, 0x01, 0x46, 0x4E, 0x02, 0x02, 0x02, 0x01, 0x42, 0x44, 0x4F, 0x50, 0x00, 0x02, 0x42,
    0x52, 0x00, 0x47, 0x56, 0x01, 0x42, 0x52, 0x01, 0x4D, 0x4B, 0x01, 0x04, 0x02, 0x01, 0x54, 0x4C, 0x00, 0x03, 0x05, 0x4E, 0x44,
];

/// The reversal file with one byte set.
fn with(place: usize, byte: u8) -> Vec<u8> {
    let mut file = REVERSAL.to_vec();
    file[place] = byte;
    file
}

/// The verdict of a refusal.
fn refused(number: u32, place: u32) -> Verdict {
    Verdict::Refused { number, place }
}

/// Runs a file over some cells and gives the answer and the cells afterwards.
fn run_over(file: &[u8], arguments: &[u32], cells: &[[u32; 5]], budget: u32) -> (Answer, Vec<[u32; 5]>) {
    let mut store = cells.concat();
    let mut work = vec![7; WORK_WORDS + 3];
    let answer = run(file, arguments, &mut store, &mut work, budget);
    assert!(work[WORK_WORDS..].iter().all(|word| *word == 7));
    let expected = if answer.number != 0 && answer.number < 22 { 7 } else { 0 };
    assert!(work[..WORK_WORDS].iter().all(|word| *word == expected));
    (answer, store.as_chunks().0.to_vec())
}

/// P1: the reversal file is flat with one function.
#[test]
fn p1() {
    assert_eq!(check(&REVERSAL), Verdict::Flat { depth: 1, reached: 1 });
}

/// P2 to P7: one byte set.
#[test]
fn p2_to_p7() {
    assert_eq!(check(&with(39, 3)), refused(9, 39));
    assert_eq!(check(&with(33, 3)), refused(8, 33));
    assert_eq!(check(&with(32, 5)), refused(7, 32));
    assert_eq!(check(&with(25, 0)), refused(9, 25));
    assert_eq!(check(&with(12, 1)), refused(8, 25));
    assert_eq!(check(&with(28, 0)), refused(12, 28));
}

/// P8: a file that ends early.
#[test]
fn p8() {
    assert_eq!(check(&REVERSAL[..41]), refused(2, 41));
    assert_eq!(check(&[]), refused(2, 0));
}

/// P9: a byte too many.
#[test]
fn p9() {
    assert_eq!(check(&[&REVERSAL[..], &[0]].concat()), refused(6, 42));
}

/// P10: an owned parameter is left over.
#[test]
fn p10() {
    let file = [0x46, 0x4E, 2, 2, 2, 1, 0x42, 0x44, 0x47, 0x56, 0, 0x4E, 0x44];
    assert_eq!(check(&file), refused(11, 8));
}

/// P11: a list of two cells reversed, the same with one step too few, and with none.
#[test]
fn p11() {
    let cells = [[1, 5, 65537, 0, 0], [1, 7, 0, 0, 0]];
    let (answer, after) = run_over(&REVERSAL, &[65536, 0], &cells, 8);
    assert_eq!(answer, Answer { number: 0, value: 65537, steps: 8, place: 0, frames: 1 });
    assert_eq!(after, [[1, 5, 0, 0, 0], [1, 7, 65536, 0, 0]]);
    let (answer, after) = run_over(&REVERSAL, &[65536, 0], &cells, 7);
    assert_eq!(answer, Answer { number: 32, value: 0, steps: 7, place: 23, frames: 1 });
    assert_eq!(after, [[1, 5, 0, 0, 0], [1, 7, 65536, 0, 0]]);
    let (answer, after) = run_over(&REVERSAL, &[65536, 0], &cells, 0);
    assert_eq!(answer, Answer { number: 32, value: 0, steps: 0, place: 16, frames: 1 });
    assert_eq!(after, cells);
}

/// P12: one list handed over twice.
#[test]
fn p12() {
    let cells = [[1, 5, 65537, 0, 0], [1, 7, 0, 0, 0]];
    let (answer, after) = run_over(&REVERSAL, &[65536, 65536], &cells, 8);
    assert_eq!(answer, Answer { number: 23, ..Answer::default() });
    assert_eq!(after, cells);
}

/// P13: no branch for an atom.
#[test]
fn p13() {
    let mut file = with(19, 1);
    file.drain(20..26);
    assert_eq!(check(&file), Verdict::Flat { depth: 1, reached: 1 });
    let (answer, _) = run_over(&file, &[0, 0], &[], 1);
    assert_eq!(answer, Answer { number: 31, value: 0, steps: 1, place: 16, frames: 1 });
}

/// P14: a function that waits for itself.
#[test]
fn p14() {
    let file = [0x46, 0x4E, 0, 0, 0x42, 0x44, 0x43, 0x4C, 0, 0x47, 0x56, 0, 0x4E, 0x44];
    assert_eq!(check(&file), Verdict::Stacked { reached: 1 });
    let (answer, _) = run_over(&file, &[], &[], 40);
    assert_eq!(answer, Answer { number: 33, value: 0, steps: 32, place: 6, frames: 32 });
}

/// A sum and a difference at the ends of the range of numbers.
#[test]
fn ends_of_the_range() {
    let done = |value| Answer { number: 0, value, steps: 2, place: 0, frames: 1 };
    let ended = Answer { number: 34, value: 0, steps: 1, place: 8, frames: 1 };
    for (operation, arguments, expected) in [
        (0, [65535, 0], done(65535)),
        (0, [65535, 1], ended),
        (1, [0, 0], done(0)),
        (1, [5, 5], done(0)),
        (1, [0, 1], ended),
        (2, [0, 65535], done(1)),
        (3, [65535, 65535], done(1)),
    ] {
        let file = [0x46, 0x4E, 2, 0, 0, 0, 0x42, 0x44, 0x41, 0x52, operation, 0, 1, 0x47, 0x56, 2, 0x4E, 0x44];
        assert_eq!(run_over(&file, &arguments, &[], 8).0, expected, "operation {operation} on {arguments:?}");
    }
}
