//! What the two programs read and print.

use crate::{Answer, Verdict, WORK_WORDS, check, run};

/// The line of the checking program for a file.
pub fn check_line(file: &[u8]) -> String {
    verdict_line(check(file))
}

/// A verdict as the checking program prints it.
pub fn verdict_line(verdict: Verdict) -> String {
    match verdict {
        Verdict::Flat { depth, reached } => format!("accepted flat {depth} {reached}\n"),
        Verdict::Stacked { reached } => format!("accepted stacked {reached}\n"),
        Verdict::Refused { number, place } => format!("refused {number} at {place}\n"),
    }
}

/// An answer as the running program prints it.
pub fn answer_line(answer: Answer) -> String {
    let Answer { number, value, steps, place, frames } = answer;
    format!("{number} {value} {steps} {place} {frames}\n")
}

/// What the running program is asked to run.
#[derive(Clone, Debug, PartialEq, Eq)]
pub struct Request {
    pub file: Vec<u8>,
    pub arguments: Vec<u32>,
    pub store: Vec<u32>,
    pub budget: u32,
}

impl Request {
    /// Reads an input of the running program; nothing if it is bad.
    pub fn read(input: &[u8]) -> Option<Request> {
        let (head, rest) = input.split_at_checked(16)?;
        let head = words(head);
        let (length, count, cells, budget) = (head[0], head[1], head[2], head[3]);
        if length > 4097 || count > 9 || cells > 1025 {
            return None;
        }
        let (file, rest) = rest.split_at_checked(length as usize)?;
        let (arguments, store) = rest.split_at_checked(count as usize * 4)?;
        if store.len() != cells as usize * 20 {
            return None;
        }
        Some(Request { file: file.to_vec(), arguments: words(arguments), store: words(store), budget })
    }

    /// Writes the input that asks for this.
    pub fn write(&self) -> Vec<u8> {
        let counts = [self.file.len() as u32, self.arguments.len() as u32, (self.store.len() / 5) as u32, self.budget];
        let mut input: Vec<u8> = counts.iter().flat_map(|word| word.to_be_bytes()).collect();
        input.extend(&self.file);
        input.extend(self.arguments.iter().chain(&self.store).flat_map(|word| word.to_be_bytes()));
        input
    }
}

/// The line of the running program for an input, and the store afterwards.
pub fn run_line(input: &[u8]) -> (String, Vec<u32>) {
    let Some(mut request) = Request::read(input) else { return ("bad input\n".to_string(), Vec::new()) };
    let mut work = vec![0; WORK_WORDS];
    let answer = run(&request.file, &request.arguments, &mut request.store, &mut work, request.budget);
    (answer_line(answer), request.store)
}

/// The 32-bit words of some bytes, high byte first.
pub fn words(bytes: &[u8]) -> Vec<u32> {
    bytes.chunks_exact(4).map(|word| u32::from_be_bytes([word[0], word[1], word[2], word[3]])).collect()
}
