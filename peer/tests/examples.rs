//! The examples beside the package: each text gives the bytes beside it, and each start its answer and its cells.

use peer::input::{Request, check_line, run_line};
use peer::random::Random;
use peer::text::assemble;
use std::path::{Path, PathBuf};

/// A start and what is expected of it.
#[derive(Default)]
struct Run {
    name: String,
    arguments: Vec<u32>,
    cells: Vec<u32>,
    budget: u32,
    answer: String,
    after: Vec<u32>,
}

/// An example: its name, text, bytes, verdict and runs.
struct Example {
    name: String,
    text: String,
    bytes: Vec<u8>,
    verdict: String,
    runs: Vec<Run>,
}

/// The numbers of a text.
fn numbers(text: &str) -> Vec<u32> {
    text.split_whitespace().map(|word| word.parse().expect("a number")).collect()
}

/// The words of a cell.
fn cell(text: &str) -> Vec<u32> {
    let words = numbers(text);
    assert_eq!(words.len(), 5, "{text}");
    words
}

/// The bytes of a hexadecimal text.
fn bytes(text: &str) -> Vec<u8> {
    let digits: String = text.split_whitespace().collect();
    (0..digits.len() / 2).map(|index| u8::from_str_radix(&digits[2 * index..2 * index + 2], 16).expect("hexadecimal")).collect()
}

/// Reads the verdict and the runs of a text.
fn runs(text: &str) -> (String, Vec<Run>) {
    let (mut verdict, mut runs) = (String::new(), Vec::<Run>::new());
    for line in text.lines().filter(|line| !line.is_empty() && !line.starts_with(';')) {
        let (word, rest) = line.split_once(' ').unwrap_or((line, ""));
        match (word, runs.last_mut()) {
            ("verdict", None) => verdict = format!("{rest}\n"),
            ("run", _) => runs.push(Run { name: rest.to_string(), ..Run::default() }),
            ("arguments", Some(run)) => run.arguments = numbers(rest),
            ("cell", Some(run)) => run.cells.extend(cell(rest)),
            ("budget", Some(run)) => run.budget = rest.parse().expect("a budget"),
            ("answer", Some(run)) => run.answer = format!("{rest}\n"),
            ("after", Some(run)) => run.after.extend(cell(rest)),
            _ => panic!("{line}"),
        }
    }
    (verdict, runs)
}

/// Reads the example whose text has this path.
fn example(path: &Path) -> Example {
    let read = |path: PathBuf| std::fs::read_to_string(&path).unwrap_or_else(|fault| panic!("{}: {fault}", path.display()));
    let (verdict, runs) = runs(&read(path.with_extension("run")));
    Example {
        name: path.file_stem().expect("a name").to_string_lossy().into_owned(),
        text: read(path.to_path_buf()),
        bytes: bytes(&read(path.with_extension("hex"))),
        verdict,
        runs,
    }
}

/// Reads all examples.
fn examples() -> Vec<Example> {
    let folder = concat!(env!("CARGO_MANIFEST_DIR"), "/../examples");
    let paths = std::fs::read_dir(folder).expect("the folder can be read").map(|entry| entry.expect("an entry").path());
    let examples: Vec<Example> =
        paths.filter(|path| path.extension().is_some_and(|ending| ending == "rules")).map(|path| example(&path)).collect();
    assert!(examples.len() > 10);
    examples
}

/// Each text gives the bytes beside it.
#[test]
fn texts() {
    for example in examples() {
        let bytes = assemble(&example.text).unwrap_or_else(|fault| panic!("{}: {fault}", example.name));
        assert_eq!(bytes, example.bytes, "{}", example.name);
    }
}

/// Each file gets the verdict expected of it.
#[test]
fn verdicts() {
    for example in examples() {
        assert_eq!(check_line(&example.bytes), example.verdict, "{}", example.name);
    }
}

/// Each start gets the answer expected of it and leaves the cells expected of it.
#[test]
fn starts() {
    for Example { name, bytes, runs, .. } in examples() {
        assert!(!runs.is_empty(), "{name}");
        for run in runs {
            let request = Request { file: bytes.clone(), arguments: run.arguments, store: run.cells, budget: run.budget };
            let (answer, store) = run_line(&request.write());
            assert_eq!(answer, run.answer, "{name}: {}", run.name);
            assert_eq!(store, run.after, "{name}: {}", run.name);
        }
    }
}

/// The numbers of a list of cons and nil, constructors 1 and 0.
fn list(store: &[u32], mut word: u32) -> Vec<u32> {
    let mut numbers = Vec::new();
    while word != 0 {
        let cell = &store[5 * (word - 65_536) as usize..][..5];
        assert_eq!(cell[0], 1);
        numbers.push(cell[1]);
        word = cell[2];
    }
    numbers
}

/// Both sorts sort random lists, and use every cell of them.
#[test]
fn sorts() {
    let mut random = Random::new(7);
    for Example { name, bytes, .. } in examples().into_iter().filter(|it| ["insertion", "mergesort"].contains(&it.name.as_str()))
    {
        for length in (0..60).chain([300]) {
            let mut numbers: Vec<u32> = (0..length).map(|_| random.below(50) as u32).collect();
            let next = |index: usize| if index + 1 < length { 65_537 + index as u32 } else { 0 };
            let store = numbers.iter().enumerate().flat_map(|(index, number)| [1, *number, next(index), 0, 0]).collect();
            let arguments = vec![if length == 0 { 0 } else { 65_536 }];
            let request = Request { file: bytes.clone(), arguments, store, budget: u32::MAX };
            let (answer, store) = run_line(&request.write());
            let fields = self::numbers(&answer);
            numbers.sort();
            assert_eq!((fields[0], list(&store, fields[1])), (0, numbers), "{name}");
        }
    }
}

/// The black nodes on every way down a red-black tree; its keys are added in order.
fn blacks(store: &[u32], word: u32, under_red: bool, keys: &mut Vec<u32>) -> usize {
    if word == 0 {
        return 0;
    }
    let cell = &store[5 * (word - 65_536) as usize..][..5];
    let red = cell[1] == 1;
    assert!(cell[0] == 1 && !(red && under_red));
    let left = blacks(store, cell[2], red, keys);
    keys.push(cell[3]);
    assert_eq!(left, blacks(store, cell[4], red, keys));
    left + usize::from(!red)
}

/// Random keys, inserted one by one, stay in order and in balance.
#[test]
fn red_black() {
    let file = examples().into_iter().find(|it| it.name == "redblack").expect("the example").bytes;
    let mut random = Random::new(9);
    let (mut root, mut store, mut keys) = (0, [5, 0, 0, 0, 0].repeat(200), Vec::new());
    for spare in 65_536..65_736 {
        keys.push(random.below(1_000) as u32);
        let request = Request { file: file.clone(), arguments: vec![root, keys[keys.len() - 1], spare], store, budget: 1_000 };
        let (answer, after) = run_line(&request.write());
        let fields = numbers(&answer);
        assert_eq!(fields[0], 0);
        (root, store) = (fields[1], after);
        let (mut sorted, mut found) = (keys.clone(), Vec::new());
        sorted.sort();
        blacks(&store, root, false, &mut found);
        assert_eq!(found, sorted);
    }
}
