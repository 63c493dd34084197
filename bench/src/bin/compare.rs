//! Runs random cases through two formulations and holds everything they leave behind against each other.
#![forbid(unsafe_code)]

use bench::proved;
use peer::agreement::{self, Outcome};
use peer::input::Request;
use peer::random::Random;
use peer::random::cases::{Case, case};
use std::collections::BTreeMap;
use std::process::ExitCode;

/// What the peer is held against.
#[derive(Clone, Copy, PartialEq, Eq)]
enum Other {
    Slow,
    Proved,
}

/// How often each verdict and each answer occurred.
#[derive(Default)]
struct Histogram {
    verdicts: BTreeMap<String, u64>,
    answers: BTreeMap<u32, u64>,
    steps: u64,
    not_begun: u64,
    derivations: u64,
}

/// Reads `self` or `proved`, the number of cases and a seed, and compares.
fn main() -> ExitCode {
    let arguments: Vec<String> = std::env::args().skip(1).collect();
    let other = match arguments.first().map(String::as_str) {
        Some("self") => Other::Slow,
        Some("proved") if proved::PRESENT => Other::Proved,
        Some("proved") => return usage("this program was built without BASE_LIBRARY"),
        _ => return usage("compare self|proved CASES [SEED]"),
    };
    let number = |index: usize, usual: u64| arguments.get(index).map_or(Some(usual), |text| text.parse().ok());
    let (Some(cases), Some(seed)) = (number(1, 10_000), number(2, 1)) else {
        return usage("compare self|proved CASES [SEED]");
    };
    let mut histogram = Histogram::default();
    for index in 0..cases {
        let seed = seed.wrapping_mul(0x1_0000_0000).wrapping_add(index);
        let case = case(&mut Random::new(seed));
        if let Err(difference) = compare(&case, other, &mut histogram) {
            println!("case {index}: {difference}");
            show(&case);
            return ExitCode::FAILURE;
        }
    }
    histogram.print(cases);
    ExitCode::SUCCESS
}

/// Says how the program is called.
fn usage(text: &str) -> ExitCode {
    eprintln!("{text}");
    ExitCode::FAILURE
}

/// Compares one case.
fn compare(case: &Case, other: Other, histogram: &mut Histogram) -> Result<(), String> {
    let fast = agreement::fast(case);
    histogram.count(&fast);
    let second = match other {
        Other::Slow => agreement::slow(case),
        Other::Proved => agreement::outcome(case, proved::check, proved::run),
    };
    differences(&fast, &second)?;
    if other == Other::Slow {
        further(case, &fast, histogram)?;
    }
    Ok(())
}

/// Says in which field two outcomes differ.
fn differences(peer: &Outcome, second: &Outcome) -> Result<(), String> {
    if peer.verdict != second.verdict {
        return Err(format!("verdict {:?}, other {:?}", peer.verdict, second.verdict));
    }
    if peer.answer != second.answer {
        return Err(format!("answer {:?}, other {:?}", peer.answer, second.answer));
    }
    for (name, peer, second) in [("store", &peer.store, &second.store), ("work area", &peer.work, &second.work)] {
        if let Some(index) = (0..peer.len()).find(|index| peer[*index] != second[*index]) {
            return Err(format!("{name} word {index}: {}, other {}", peer[index], second[index]));
        }
    }
    Ok(())
}

/// Holds the peer against the derivation, the plain trees and demand 3.
fn further(case: &Case, fast: &Outcome, histogram: &mut Histogram) -> Result<(), String> {
    let derivation = agreement::derivation_agrees(&case.file);
    histogram.derivations += u64::from(derivation.is_some());
    if derivation == Some(false) {
        return Err("the derivation differs from the slots".to_string());
    }
    if agreement::plain_agrees(case, fast) == Some(false) {
        return Err("the plain trees differ".to_string());
    }
    if fast.answer.steps <= 3_000 && agreement::demand_agrees(case, fast) == Some(false) {
        return Err("demand 3 fails".to_string());
    }
    Ok(())
}

/// Shows a case in hexadecimal, the file and the running program's input.
fn show(case: &Case) {
    let hexadecimal = |bytes: &[u8]| bytes.iter().map(|byte| format!("{byte:02x}")).collect::<String>();
    let Case { file, arguments, store, work, budget } = case.clone();
    println!("file {}", hexadecimal(&file));
    println!("arguments {arguments:x?} budget {budget} store {} words, work area {} words", store.len(), work.len());
    println!("input {}", hexadecimal(&Request { file, arguments, store, budget }.write()));
}

impl Histogram {
    /// Counts an outcome.
    fn count(&mut self, outcome: &Outcome) {
        let line = peer::input::verdict_line(outcome.verdict);
        let words: Vec<&str> = line.split_whitespace().take(2).collect();
        *self.verdicts.entry(words.join(" ")).or_default() += 1;
        *self.answers.entry(outcome.answer.number).or_default() += 1;
        self.steps += u64::from(outcome.answer.steps);
        self.not_begun += u64::from(outcome.answer.number == 32 && outcome.answer.steps == 0);
    }

    /// Prints all counts.
    fn print(&self, cases: u64) {
        println!("{cases} cases, {} steps, {} derivations, no difference", self.steps, self.derivations);
        for (verdict, count) in &self.verdicts {
            println!("{count:>9} {verdict}");
        }
        for (number, count) in &self.answers {
            println!("{count:>9} answer {number}");
        }
        println!("{:>9} of these 32 with no step", self.not_begun);
    }
}
