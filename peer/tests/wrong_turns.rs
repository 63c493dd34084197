//! The wrong turns that document 01 closes off.

use peer::{Answer, Verdict, WORK_WORDS, check, run, slow};

/// The declarations of an atom and of a list cell.
const LIST: &[u8] = b"CN\x00CN\x02\x00\x01";

/// Tests a file with both formulations.
fn verdict(records: &[&[u8]]) -> Verdict {
    let file = records.concat();
    assert_eq!(check(&file), slow::check(&file));
    check(&file)
}

/// The number and the place of a refusal; nothing for an accepted file.
fn refusal(records: &[&[u8]]) -> Option<(u32, u32)> {
    match verdict(records) {
        Verdict::Refused { number, place } => Some((number, place)),
        _ => None,
    }
}

/// The answer number of a run with these arguments and cells.
fn number(records: &[&[u8]], arguments: &[u32], cells: &[[u32; 5]]) -> u32 {
    let (file, mut store, mut work) = (records.concat(), cells.concat(), vec![3; WORK_WORDS]);
    let Answer { number, .. } = run(&file, arguments, &mut store, &mut work, 1_000);
    let mut second = cells.concat();
    assert_eq!(number, slow::run(&file, arguments, &mut second, &mut work, 1_000).number);
    number
}

/// A slot is lent and handed over in one call, the lent argument first, then the owned one.
#[test]
fn lent_and_handed_over() {
    let functions: &[u8] = b"FN\x01\x02\x01FN\x02\x01\x02\x01FN\x02\x02\x01\x01FN\x02\x01\x01\x00";
    let rest: &[u8] = b"BDGV\x01BDGV\x00BDNU\x00\x00GV\x02ND";
    let start = (LIST.len() + functions.len() + 2) as u32;
    assert_eq!(refusal(&[LIST, functions, b"BDTL\x01\x00\x00", rest]), Some((9, start + 4)));
    assert_eq!(refusal(&[LIST, functions, b"BDTL\x02\x00\x00", rest]), Some((9, start + 4)));
    assert_eq!(refusal(&[LIST, functions, b"BDCL\x03\x00\x00GV\x00", rest]), None);
    assert_eq!(refusal(&[LIST, functions, b"BDCL\x01\x00\x00GV\x01", rest]), Some((9, start + 4)));
    assert_eq!(refusal(&[LIST, functions, b"BDAT\x00CL\x01\x00\x01GV\x02", rest]), Some((11, start + 8)));
}

/// LK looks at an owned slot.
#[test]
fn look_at_an_owned_slot() {
    let file: [&[u8]; 3] = [LIST, b"FN\x01\x02\x01BD", b"LK\x00\x01BR\x00GV\x00ND"];
    assert_eq!(refusal(&file), Some((8, (LIST.len() + 9) as u32)));
}

/// A CL and a TL back make an endless stack.
#[test]
fn a_call_and_a_tail_call_back() {
    let file: [&[u8]; 3] = [b"FN\x00\x00FN\x00\x00", b"BDCL\x01GV\x00", b"BDTL\x00ND"];
    assert_eq!(verdict(&file), Verdict::Stacked { reached: 2 });
    assert_eq!(number(&file, &[], &[]), 33);
    let file: [&[u8]; 3] = [b"FN\x00\x00FN\x00\x00", b"BDTL\x01", b"BDTL\x00ND"];
    assert_eq!(verdict(&file), Verdict::Flat { depth: 1, reached: 2 });
    assert_eq!(number(&file, &[], &[]), 32);
}

/// Calls that function 0 doesn't reach count for nothing.
#[test]
fn calls_that_are_not_reached() {
    let file: [&[u8]; 3] = [b"FN\x00\x00FN\x00\x00", b"BDNU\x00\x01GV\x00", b"BDCL\x01GV\x00ND"];
    assert_eq!(verdict(&file), Verdict::Flat { depth: 1, reached: 1 });
}

/// A lent argument reaches into an owned one, or the other way round.
#[test]
fn a_lent_argument_reaches_into_an_owned_one() {
    let file: [&[u8]; 2] = [LIST, b"FN\x03\x01\x02\x01\x01BDGV\x01ND"];
    let cells = [[1, 5, 65_537, 0, 0], [1, 7, 65_538, 0, 0], [1, 9, 0, 0, 0], [1, 9, 65_539, 0, 0], [1, 70_000, 0, 0, 0]];
    assert_eq!(number(&file, &[0, 65_536, 0], &cells), 0);
    assert_eq!(number(&file, &[65_537, 65_536, 0], &cells), 23);
    assert_eq!(number(&file, &[0, 65_537, 65_536], &cells), 23);
    assert_eq!(number(&file, &[65_536, 0, 65_538], &cells), 0);
    assert_eq!(number(&file, &[65_539, 65_536, 65_536], &cells), 23);
    assert_eq!(number(&file, &[65_539, 0, 65_536], &cells), 24);
    assert_eq!(number(&file, &[0, 65_539, 0], &cells), 23);
    assert_eq!(number(&file, &[65_539, 65_540, 0], &cells), 22);
}

/// Each branch and each term of an IF starts from the slots before it.
#[test]
fn branches_start_from_the_same_slots() {
    let functions: &[u8] = b"FN\x03\x02\x02\x00\x01BD";
    assert_eq!(refusal(&[LIST, functions, b"OP\x00\x01BR\x00IF\x02GV\x01GV\x01ND"]), None);
    let both: &[u8] = b"OP\x00\x02BR\x00GV\x01BR\x01MK\x01\x05\x03\x01OP\x04\x01BR\x00GV\x06ND";
    assert_eq!(refusal(&[LIST, functions, both]), None);
}
