//! The vectors: files and runs with the lines and stores that are expected of them.

use peer::input::{check_line, run_line};

/// One vector.
struct Vector {
    name: String,
    file: Vec<u8>,
    check: String,
    run: Vec<u8>,
    answer: String,
    store: Vec<u8>,
}

/// The text of a field in a line of JSON that holds only plain text fields.
fn field(line: &str, name: &str) -> String {
    let key = format!("\"{name}\": \"");
    let start = line.find(&key).unwrap_or_else(|| panic!("no field {name} in {line}")) + key.len();
    let end = start + line[start..].find('"').expect("the field ends");
    line[start..end].replace("\\n", "\n")
}

/// The bytes of a hexadecimal text.
fn bytes(text: &str) -> Vec<u8> {
    (0..text.len() / 2).map(|index| u8::from_str_radix(&text[2 * index..2 * index + 2], 16).expect("hexadecimal")).collect()
}

/// Reads all vectors: those of the package, or those of the path in the variable VECTORS.
fn vectors() -> Vec<Vector> {
    let path = std::env::var("VECTORS").unwrap_or(concat!(env!("CARGO_MANIFEST_DIR"), "/tests/vectors.jsonl").to_string());
    let text = std::fs::read_to_string(&path).expect("the vectors can be read");
    text.lines()
        .map(|line| Vector {
            name: field(line, "name"),
            file: bytes(&field(line, "file")),
            check: field(line, "check"),
            run: bytes(&field(line, "run")),
            answer: field(line, "answer"),
            store: bytes(&field(line, "store")),
        })
        .collect()
}

/// Each file gets the verdict expected of it.
#[test]
fn verdicts() {
    let all = vectors();
    assert!(all.len() > 100);
    for vector in all {
        assert_eq!(check_line(&vector.file), vector.check, "vector {}", vector.name);
    }
}

/// Each run gets the line expected of it and leaves the store expected of it.
#[test]
fn answers() {
    for vector in vectors() {
        let (line, store) = run_line(&vector.run);
        assert_eq!(line, vector.answer, "vector {}", vector.name);
        if line != "bad input\n" {
            let store: Vec<u8> = store.iter().flat_map(|word| word.to_be_bytes()).collect();
            assert_eq!(store, vector.store, "vector {}", vector.name);
        }
    }
}
