//! The limits: files, stores, arguments and budgets at a limit and one over it.

use peer::input::{Request, run_line};
use peer::random::limits::*;
use peer::{Answer, Verdict, WORK_WORDS, check, run, slow};

/// A file that counts its first argument down and adds up what it passes.
const COUNT: &[u8] = b"FN\x02\x00\x00\x00BDIF\x00NU\x00\x01AR\x01\x00\x02AR\x00\x01\x00TL\x00\x03\x04GV\x01ND";

/// Tests a file with both formulations.
fn verdict(file: &[u8]) -> Verdict {
    assert_eq!(check(file), slow::check(file));
    check(file)
}

/// The verdict of a refusal.
fn refused(number: u32, place: u32) -> Verdict {
    Verdict::Refused { number, place }
}

/// Whether a file is accepted.
fn accepted(file: &[u8]) -> bool {
    !matches!(verdict(file), Verdict::Refused { .. })
}

/// Runs a file with a work area of so many words.
fn run_with(file: &[u8], arguments: &[u32], store: &mut [u32], words: usize, budget: u32) -> Answer {
    let (mut work, mut other) = (vec![1; words], vec![1; words]);
    let mut second = store.to_vec();
    let answer = run(file, arguments, store, &mut work, budget);
    assert_eq!(answer, slow::run(file, arguments, &mut second, &mut other, budget));
    assert_eq!((&*store, work), (&second[..], other));
    answer
}

/// The answer of a refusal at place 0.
fn refusal(number: u32) -> Answer {
    Answer { number, ..Answer::default() }
}

/// A list of so many cells in order.
fn list(cells: usize) -> Vec<u32> {
    (0..cells as u32).flat_map(|cell| [1, cell, if cell as usize + 1 == cells { 0 } else { 65_537 + cell }, 9, 9]).collect()
}

/// 4,096 bytes are read, 4,097 are not.
#[test]
fn bytes() {
    assert_eq!(with_bytes(4096).len(), 4096);
    assert_eq!(with_bytes(4097).len(), 4097);
    assert_eq!(verdict(&with_bytes(4096)), Verdict::Flat { depth: 1, reached: 1 });
    assert_eq!(verdict(&with_bytes(4097)), refused(1, 0));
    assert_eq!(verdict(&[0; 4097]), refused(1, 0));
    assert_eq!(verdict(&[0; 4096]), refused(3, 0));
    for length in 64..600 {
        assert_eq!(with_bytes(length).len(), length);
        assert!(accepted(&with_bytes(length)), "{length}");
    }
}

/// The 65th constructor and the 33rd function are over the limit, at their marks.
#[test]
fn declarations() {
    assert!(accepted(&with_constructors(64)));
    assert_eq!(verdict(&with_constructors(65)), refused(5, 64 * 3));
    assert_eq!(verdict(&with_functions(32)), Verdict::Flat { depth: 32, reached: 32 });
    assert_eq!(verdict(&with_functions(33)), refused(5, 32 * 4));
    assert!(accepted(&with_arguments(8)));
    assert_eq!(verdict(&with_arguments(9)), refused(4, 2));
}

/// The 33rd slot is over the limit, at the mark of the record that binds it.
#[test]
fn slots() {
    assert!(accepted(&with_slots(32)));
    let start = 2 + 1 + 8 + 1 + 2;
    assert_eq!(verdict(&with_slots(33)), refused(5, start + 24 * 4));
    assert!(accepted(&with_slots_of_a_branch(31)));
    for (count, mark) in [(32, b"MK"), (33, b"BR")] {
        let file = with_slots_of_a_branch(count);
        let place = file.windows(2).position(|bytes| bytes == mark).expect("the mark") as u32;
        assert_eq!(verdict(&file), refused(5, place));
    }
}

/// The 65th node is over the limit, at its mark.
#[test]
fn nodes() {
    assert!(accepted(&with_nodes(64)));
    let start = 2 + 1 + 1 + 1 + 2;
    assert_eq!(verdict(&with_nodes(65)), refused(5, start + 63 * 6 + 3));
}

/// A list has up to 64 branches, each constructor once.
#[test]
fn branches() {
    assert!(accepted(&with_branches(64, 64)));
    let start = 64 * 3 + 5 + 2;
    assert_eq!(verdict(&with_branches(64, 65)), refused(4, start + 3));
    let tenth = 10 * 3 + 5 + 2 + 4 + 10 * 10 + 2;
    assert_eq!(verdict(&with_branches(10, 64)), refused(12, tenth));
}

/// 1,024 cells are lent, one more is refused, as are parts of a cell and a small work area.
#[test]
fn cells() {
    let file = giving_back();
    let done = Answer { number: 0, value: 65_536, steps: 1, place: 0, frames: 1 };
    assert_eq!(run_with(&file, &[65_536], &mut list(1024), WORK_WORDS, 1), done);
    assert_eq!(run_with(&file, &[65_536], &mut list(1025), WORK_WORDS, 0), refusal(20));
    assert_eq!(run_with(&file, &[65_536], &mut list(3)[..14], WORK_WORDS, 0), refusal(20));
    assert_eq!(run_with(&file, &[65_536], &mut list(3), WORK_WORDS - 1, 0), refusal(20));
    assert_eq!(run_with(&file, &[65_535], &mut list(3), WORK_WORDS + 1, 0), refusal(22));
    assert_eq!(run_with(&file, &[65_539], &mut list(3), WORK_WORDS, 0), refusal(22));
    assert_eq!(run_with(&file, &[0], &mut [], WORK_WORDS, 1), Answer { value: 0, ..done });
}

/// Eight arguments are taken, seven and nine are not.
#[test]
fn arguments() {
    let file = with_arguments(8);
    assert_eq!(run_with(&file, &[65_535; 8], &mut [], WORK_WORDS, 1_000).number, 0);
    assert_eq!(run_with(&file, &[65_536; 8], &mut [], WORK_WORDS, 0), refusal(22));
    assert_eq!(run_with(&file, &[65_536; 7], &mut [], WORK_WORDS, 0), refusal(21));
    assert_eq!(run_with(&file, &[65_536; 9], &mut [], WORK_WORDS, 0), refusal(21));
}

/// The budget is kept to the step: with 0 the start is checked and no node begins.
#[test]
fn budgets() {
    let steps = 5 * 100 + 2;
    let done = Answer { number: 0, value: 5_050, steps, place: 0, frames: 1 };
    for budget in [steps, steps + 1, u32::MAX] {
        assert_eq!(run_with(COUNT, &[100, 0], &mut [], WORK_WORDS, budget), done);
    }
    let stopped = |steps, place| Answer { number: 32, value: 0, steps, place, frames: 1 };
    assert_eq!(run_with(COUNT, &[100, 0], &mut [], WORK_WORDS, steps - 1), stopped(steps - 1, 30));
    assert_eq!(run_with(COUNT, &[100, 0], &mut [], WORK_WORDS, 1), stopped(1, 11));
    assert_eq!(run_with(COUNT, &[100, 0], &mut [], WORK_WORDS, 0), stopped(0, 8));
    assert_eq!(run_with(COUNT, &[65_536, 0], &mut [], WORK_WORDS, 0), refusal(22));
    assert_eq!(run_with(b"FN\x00\x00BDTL\x00ND", &[], &mut [], WORK_WORDS, 100_000), stopped(100_000, 6));
}

/// Counts over 4,097, 9 and 1,025 are bad input, as is a length that isn't as said.
#[test]
fn inputs() {
    let request = |bytes: usize, arguments: usize, cells: usize| {
        Request { file: vec![0; bytes], arguments: vec![0; arguments], store: vec![0; cells * 5], budget: 1 }.write()
    };
    let line = |input: &[u8]| run_line(input).0;
    assert_eq!(line(&request(4097, 9, 1025)), "1 0 0 0 0\n");
    for input in [request(4098, 9, 1025), request(4097, 10, 1025), request(4097, 9, 1026), request(0, 0, 0)[..15].to_vec()] {
        assert_eq!(line(&input), "bad input\n");
    }
    let input = request(3, 1, 1);
    assert_eq!(line(&input[..input.len() - 1]), "bad input\n");
    assert_eq!(line(&[&input[..], &[0]].concat()), "bad input\n");
    assert_eq!(line(&input), "3 0 0 0 0\n");
    assert_eq!(line(&[]), "bad input\n");
}
