//! Measures the proved library, the peer and native loops in one process, round by round in turn: the least times, and the middle of the rounds' ratios.
//! Of the runs with many steps it also shows the steps alone, as what a whole run takes beyond a run that is cut after one step; there, native is a
//! plain interpreter of the same bytes.
#![forbid(unsafe_code)]

use bench::bytes::Bytes;
use bench::proved;
use bench::workloads::{Workload, all, files};
use peer::{Answer, CELL_WORDS, Verdict, WORK_WORDS};
use std::hint::black_box;
use std::time::{Duration, Instant};

/// How many rounds each thing is measured in.
const ROUNDS: usize = 101;
/// How long one round of one thing takes, about.
const ROUND: Duration = Duration::from_micros(300);

/// A function that runs a file.
type Run = fn(&[u8], &[u32], &mut [u32], &mut [u32], u32) -> Answer;
/// Something that is measured.
type Measured<'a> = Box<dyn FnMut() + 'a>;

/// Prints the whole table; an argument restricts it to the rows whose name contains it.
fn main() {
    let wanted = std::env::args().nth(1).unwrap_or_default();
    println!(
        "{:<42} {:>11} {:>11} {:>11} {:>8} {:>8} {:>8}",
        "nanoseconds", "proved", "peer", "native", "pr/peer", "pr/nat", "peer/nat"
    );
    for (name, file) in files() {
        if name.contains(&wanted) {
            assert!(!matches!(peer::check(&file), Verdict::Refused { .. }), "{name}");
            let peer = || _ = black_box(peer::check(black_box(&file)));
            let proved = || _ = black_box(proved::check(black_box(&file)));
            row(&name, [linked(Box::new(proved)), Some(Box::new(peer)), None]);
        }
    }
    for mut workload in all() {
        if workload.name.contains(&wanted) {
            let native = workload.native.take();
            let stepping = native.is_some() && !workload.name.starts_with("fixed");
            let native = native.map(|mut native| Box::new(move || _ = black_box(native())) as Measured);
            row(&workload.name, [linked(runs(&workload, proved::run)), Some(runs(&workload, peer::run)), native]);
            if stepping {
                steps(&workload);
            }
        }
    }
}

/// Something that needs the proved library, if that is linked.
fn linked(measured: Measured) -> Option<Measured> {
    if proved::PRESENT { Some(measured) } else { None }
}

/// Runs a workload again and again, each time over the store that the last run left.
fn runs(workload: &Workload, run: Run) -> Measured<'_> {
    let (mut arguments, mut store) = (workload.arguments.clone(), workload.store.clone());
    let mut work = vec![0; WORK_WORDS];
    Box::new(move || {
        let answer = run(black_box(&workload.file), black_box(&arguments), &mut store, &mut work, workload.budget);
        assert_eq!(answer.number, 0, "{}", workload.name);
        if workload.again {
            arguments[0] = answer.value;
        }
    })
}

/// Runs a workload for one step, again and again.
fn begins(workload: &Workload, run: Run) -> Measured<'_> {
    let (mut store, mut work) = (workload.store.clone(), vec![0; WORK_WORDS]);
    Box::new(move || {
        let answer = run(black_box(&workload.file), black_box(&workload.arguments), &mut store, &mut work, 1);
        assert_eq!(answer.number, 32, "{}", workload.name);
    })
}

/// Runs a workload by its bytes again and again, each time over the store that the last run left.
fn by_bytes<'a>(workload: &'a Workload, bytes: &'a Bytes<'a>) -> Measured<'a> {
    let (mut arguments, mut store) = (workload.arguments.clone(), workload.store.clone());
    let mut slots = vec![0; WORK_WORDS];
    Box::new(move || {
        let (cells, _) = store.as_chunks_mut::<CELL_WORDS>();
        let answer = bytes.run(black_box(&arguments), cells, &mut slots, workload.budget);
        assert_eq!(answer.number, 0, "{}", workload.name);
        if workload.again {
            arguments[0] = answer.value;
        }
    })
}

/// Measures and prints the time of one step of a workload: the least time of a whole run beyond the least of one cut after a step.
fn steps(workload: &Workload) {
    let (mut store, mut work) = (workload.store.clone(), vec![0; WORK_WORDS]);
    let answer = peer::run(&workload.file, &workload.arguments, &mut store, &mut work, workload.budget);
    let bytes = Bytes::new(&workload.file);
    let mut store = workload.store.clone();
    assert_eq!(answer, bytes.run(&workload.arguments, store.as_chunks_mut().0, &mut work, workload.budget), "{}", workload.name);
    let of = |run: Run| [Some(runs(workload, run)), Some(begins(workload, run))];
    let [peer, begun] = of(peer::run);
    let [proved, proved_begun] = if proved::PRESENT { of(proved::run) } else { [None, None] };
    let mut measured = [proved, proved_begun, peer, begun, Some(by_bytes(workload, &bytes))];
    let rounds = rounds(&mut measured);
    let step = |index: usize| (least(&rounds, index) - least(&rounds, index + 1)) / f64::from(answer.steps - 1);
    let (proved, peer, plain) = (step(0), step(2), least(&rounds, 4) / f64::from(answer.steps));
    let name = format!("  of it, each of {} steps", answer.steps);
    print!("{name:<42} {:>11} {:>11} {:>11}", cell(proved, 2), cell(peer, 2), cell(plain, 2));
    println!(" {:>8} {:>8} {:>8}", cell(proved / peer, 2), cell(proved / plain, 2), cell(peer / plain, 2));
}

/// The nanoseconds of each thing in each round, in turn.
fn rounds<const THINGS: usize>(measured: &mut [Option<Measured>; THINGS]) -> Vec<[f64; THINGS]> {
    let times: [usize; THINGS] = std::array::from_fn(|index| measured[index].as_mut().map_or(0, repetitions));
    let mut round = || std::array::from_fn(|index| measured[index].as_mut().map_or(f64::NAN, |thing| once(thing, times[index])));
    (0..ROUNDS).map(|_| round()).collect()
}

/// The least time of a thing in any round.
fn least<const THINGS: usize>(rounds: &[[f64; THINGS]], index: usize) -> f64 {
    rounds.iter().map(|round| round[index]).fold(f64::NAN, f64::min)
}

/// Measures what stands in a row, round by round in turn, and prints it.
fn row(name: &str, mut measured: [Option<Measured>; 3]) {
    let rounds = rounds(&mut measured);
    let least = |index: usize| cell(least(&rounds, index), 1);
    let ratio = |over: usize, under: usize| cell(middle(rounds.iter().map(|round| round[over] / round[under]).collect()), 2);
    print!("{name:<42} {:>11} {:>11} {:>11}", least(0), least(1), least(2));
    println!(" {:>8} {:>8} {:>8}", ratio(0, 1), ratio(0, 2), ratio(1, 2));
}

/// The middle of some numbers.
fn middle(mut numbers: Vec<f64>) -> f64 {
    numbers.sort_by(f64::total_cmp);
    numbers[numbers.len() / 2]
}

/// A number as the table shows it, or a dash if there is none.
fn cell(number: f64, digits: usize) -> String {
    if number.is_finite() { format!("{number:.digits$}") } else { "-".to_string() }
}

/// How often something has to be done to fill a round.
fn repetitions(measured: &mut Measured) -> usize {
    let mut times = 1;
    loop {
        let total = once(measured, times) * times as f64;
        if total >= ROUND.as_nanos() as f64 / 2.0 {
            return times;
        }
        times *= 2;
    }
}

/// The nanoseconds that something takes, over so many repetitions.
fn once(measured: &mut Measured, times: usize) -> f64 {
    let start = Instant::now();
    for _ in 0..times {
        measured();
    }
    start.elapsed().as_nanos() as f64 / times as f64
}
