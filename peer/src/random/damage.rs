//! Damage to files: a few bytes changed, cut, taken out, put in or added.

use super::Random;

/// The marks, for putting one in another's stead.
const MARKS: [&[u8; 2]; 15] =
    [b"CN", b"FN", b"BD", b"ND", b"GV", b"AT", b"MK", b"CL", b"TL", b"OP", b"LK", b"BR", b"NU", b"AR", b"IF"];

/// Damages a file in one or a few places.
pub fn damage(random: &mut Random, file: &mut Vec<u8>) {
    for _ in 0..1 + if random.percent(25) { random.below(3) } else { 0 } {
        once(random, file);
    }
}

/// Damages a file in one place.
fn once(random: &mut Random, file: &mut Vec<u8>) {
    let place = random.below(file.len());
    match random.below(12) {
        0 => file.truncate(place),
        1 => file.extend((0..1 + random.below(3)).map(|_| random.below(256) as u8)),
        2 if place < file.len() => drop(file.remove(place)),
        3 => file.insert(place, random.below(256) as u8),
        4 if place < file.len() => file[place] = random.below(256) as u8,
        5 => other_mark(random, file),
        _ => other_field(random, file),
    }
}

/// Changes a small byte by a little, which is mostly a slot, a constructor or a function.
fn other_field(random: &mut Random, file: &mut [u8]) {
    let small: Vec<usize> = (0..file.len()).filter(|place| file[*place] < 33).collect();
    if let Some(place) = random.pick(&small) {
        file[place] = random.rarely(20, 40, 8) as u8;
    }
}

/// Puts another mark in the stead of one.
fn other_mark(random: &mut Random, file: &mut [u8]) {
    let is_mark = |place: &usize| MARKS.iter().any(|mark| file[*place..].starts_with(&mark[..]));
    let places: Vec<usize> = (0..file.len()).filter(is_mark).collect();
    if let (Some(place), Some(mark)) = (random.pick(&places), random.pick(&MARKS)) {
        file[place..place + 2].copy_from_slice(mark);
    }
}
