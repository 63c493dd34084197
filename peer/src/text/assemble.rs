//! From text to bytes.

use super::{Fault, MODES, OPERATIONS, SORTS};

/// The marks, none of which is a name.
const MARKS: [&str; 15] = ["CN", "FN", "BD", "ND", "GV", "AT", "MK", "CL", "TL", "OP", "LK", "BR", "NU", "AR", "IF"];

/// How many lists and IF may stand within each other.
const NESTING: usize = 100;

/// A word of the text and where it stands.
#[derive(Clone, Copy)]
struct Word<'a> {
    text: &'a str,
    line: usize,
    column: usize,
}

impl Word<'_> {
    /// The fault of this word.
    fn fault(&self, reason: &str) -> Fault {
        Fault { line: self.line, column: self.column, reason: format!("{reason}, not {:?}", self.text) }
    }
}

/// A constructor or function: its name, its sorts or modes, and the names of its parameters.
struct Entry {
    name: String,
    kinds: Vec<usize>,
    parameters: Vec<String>,
}

/// The state of the reading: words not yet read from the front, and bytes written.
struct Assembler<'a> {
    words: Vec<Word<'a>>,
    next: usize,
    end: (usize, usize),
    constructors: Vec<Entry>,
    functions: Vec<Entry>,
    bytes: Vec<u8>,
}

/// The bytes of a text.
pub fn assemble(text: &str) -> Result<Vec<u8>, Fault> {
    let end = (text.lines().count().max(1), text.lines().last().map_or(0, |line| line.chars().count()) + 1);
    let mut assembler =
        Assembler { words: words(text), next: 0, end, constructors: Vec::new(), functions: Vec::new(), bytes: Vec::new() };
    assembler.file()?;
    Ok(assembler.bytes)
}

/// The words of a text, with braces as words of their own and without comments.
fn words(text: &str) -> Vec<Word<'_>> {
    let mut words = Vec::new();
    for (index, line) in text.lines().enumerate() {
        let line = line.split(';').next().unwrap_or("");
        let mut start = None;
        for (column, (place, letter)) in line.char_indices().chain([(line.len(), ' ')]).enumerate() {
            let ends = letter.is_whitespace() || letter == '{' || letter == '}';
            if let (true, Some((column, from))) = (ends, start) {
                words.push(Word { text: &line[from..place], line: index + 1, column });
                start = None;
            }
            if ends && !letter.is_whitespace() {
                words.push(Word { text: &line[place..place + 1], line: index + 1, column: column + 1 });
            } else if !ends && start.is_none() {
                start = Some((column + 1, place));
            }
        }
    }
    words
}

impl<'a> Assembler<'a> {
    /// Reads the whole text.
    fn file(&mut self) -> Result<(), Fault> {
        while self.comes("CN") {
            self.constructor()?;
        }
        while self.comes("FN") {
            self.function()?;
        }
        for index in 0..self.functions.len() {
            self.expect("BD")?;
            let name = self.word()?;
            if name.text != self.functions[index].name {
                return Err(name.fault(&format!("the body of {} is due", self.functions[index].name)));
            }
            self.term(self.functions[index].parameters.clone(), 0)?;
        }
        self.expect("ND")?;
        match self.words.get(self.next) {
            Some(word) => Err(word.fault("the text ends after ND")),
            None => Ok(()),
        }
    }

    /// Whether this word comes next.
    fn comes(&self, text: &str) -> bool {
        self.words.get(self.next).is_some_and(|word| word.text == text)
    }

    /// The next word.
    fn word(&mut self) -> Result<Word<'a>, Fault> {
        let (line, column) = self.end;
        let missing = || Fault { line, column, reason: "the text ends early".to_string() };
        let word = self.words.get(self.next).copied().ok_or_else(missing)?;
        self.next += 1;
        Ok(word)
    }

    /// Reads this word, and writes it if it is a mark.
    fn expect(&mut self, text: &str) -> Result<(), Fault> {
        let word = self.word()?;
        if word.text != text {
            return Err(word.fault(&format!("{text} is due")));
        }
        if text.chars().all(|letter| letter.is_ascii_uppercase()) {
            self.bytes.extend(text.bytes());
        }
        Ok(())
    }

    /// Reads a CN.
    fn constructor(&mut self) -> Result<(), Fault> {
        self.expect("CN")?;
        let word = self.word()?;
        let name = new_name(word, self.constructors.iter().map(|entry| &entry.name))?;
        let mut kinds = Vec::new();
        while let Some(kind) = self.words.get(self.next).and_then(|word| SORTS.iter().position(|sort| *sort == word.text)) {
            kinds.push(kind);
            self.next += 1;
        }
        self.entry(word, &kinds)?;
        self.constructors.push(Entry { name, kinds, parameters: Vec::new() });
        Ok(())
    }

    /// Reads an FN.
    fn function(&mut self) -> Result<(), Fault> {
        self.expect("FN")?;
        let word = self.word()?;
        let name = new_name(word, self.functions.iter().map(|entry| &entry.name))?;
        let (mut kinds, mut parameters) = (Vec::new(), Vec::new());
        while !self.comes("->") {
            kinds.push(one_of(self.word()?, &MODES, "a mode or -> is due")?);
            parameters.push(new_name(self.word()?, parameters.iter())?);
        }
        self.expect("->")?;
        let result = one_of(self.word()?, &SORTS, "a sort is due")?;
        self.entry(word, &kinds)?;
        self.bytes.push(result as u8);
        self.functions.push(Entry { name, kinds, parameters });
        Ok(())
    }

    /// Writes a count and as many sorts or modes, those of the thing that a word names.
    fn entry(&mut self, word: Word, kinds: &[usize]) -> Result<(), Fault> {
        self.bytes.push(byte(word, kinds.len())?);
        self.bytes.extend(kinds.iter().map(|kind| *kind as u8));
        Ok(())
    }

    /// Reads a term that starts from slots with these names.
    fn term(&mut self, mut names: Vec<String>, nesting: usize) -> Result<(), Fault> {
        loop {
            let word = self.word()?;
            if nesting > NESTING {
                return Err(word.fault("terms stand too deep"));
            }
            self.bytes.extend(word.text.bytes());
            match word.text {
                "GV" => return self.slot(&names),
                "TL" => return self.call(&names),
                "OP" => return self.list(&names, true, nesting),
                "LK" => return self.list(&names, false, nesting),
                "IF" => return self.either(names, nesting),
                "AT" => drop(self.known(true)?),
                "MK" => self.make(&names)?,
                "CL" => self.call(&names)?,
                "NU" => self.constant()?,
                "AR" => self.arithmetic(&names)?,
                _ => return Err(word.fault("a node is due")),
            }
            self.expect("as")?;
            names.push(new_name(self.word()?, names.iter())?);
        }
    }

    /// Reads a constructor or a function, writes its number, and gives it.
    fn known(&mut self, constructor: bool) -> Result<usize, Fault> {
        let word = self.word()?;
        let entries = if constructor { &self.constructors } else { &self.functions };
        let known = match numbered(word)? {
            Some(number) => Some(number).filter(|number| *number < entries.len()),
            None => entries.iter().position(|entry| entry.name == word.text),
        };
        let due = if constructor { "a constructor is due" } else { "a function is due" };
        let number = known.ok_or_else(|| word.fault(due))?;
        self.bytes.push(byte(word, number)?);
        Ok(number)
    }

    /// Reads a slot.
    fn slot(&mut self, names: &[String]) -> Result<(), Fault> {
        let word = self.word()?;
        let slot = match numbered(word)? {
            Some(number) => number,
            None => {
                names.iter().position(|name| name == word.text && name != "_").ok_or_else(|| word.fault("a bound slot is due"))?
            }
        };
        self.bytes.push(byte(word, slot)?);
        Ok(())
    }

    /// Reads the rest of an MK up to what it binds.
    fn make(&mut self, names: &[String]) -> Result<(), Fault> {
        let constructor = self.known(true)?;
        for _ in 0..=self.constructors[constructor].kinds.len() {
            self.slot(names)?;
        }
        Ok(())
    }

    /// Reads a function and its argument slots.
    fn call(&mut self, names: &[String]) -> Result<(), Fault> {
        let function = self.known(false)?;
        for _ in 0..self.functions[function].kinds.len() {
            self.slot(names)?;
        }
        Ok(())
    }

    /// Reads a slot and a list of branches in braces.
    fn list(&mut self, names: &[String], open: bool, nesting: usize) -> Result<(), Fault> {
        self.slot(names)?;
        self.expect("{")?;
        let (place, mut count) = (self.bytes.len(), 0);
        self.bytes.push(0);
        while !self.comes("}") {
            count += 1;
            self.bytes[place] = byte(self.words[self.next.min(self.words.len() - 1)], count)?;
            self.expect("BR")?;
            let constructor = self.known(true)?;
            let arity = self.constructors[constructor].kinds.len();
            let mut names = names.to_vec();
            for _ in 0..if open && arity > 0 { arity + 1 } else { arity } {
                names.push(new_name(self.word()?, names.iter())?);
            }
            self.term(names, nesting + 1)?;
        }
        self.expect("}")
    }

    /// Reads the rest of an IF.
    fn either(&mut self, names: Vec<String>, nesting: usize) -> Result<(), Fault> {
        self.slot(&names)?;
        self.term(names.clone(), nesting + 1)?;
        self.expect("else")?;
        self.term(names, nesting + 1)
    }

    /// Reads the constant of an NU.
    fn constant(&mut self) -> Result<(), Fault> {
        let word = self.word()?;
        let constant: u16 = word.text.parse().map_err(|_| word.fault("a number from 0 to 65535 is due"))?;
        self.bytes.extend(constant.to_be_bytes());
        Ok(())
    }

    /// Reads the operation and the slots of an AR.
    fn arithmetic(&mut self, names: &[String]) -> Result<(), Fault> {
        let operation = one_of(self.word()?, &OPERATIONS, "an operation is due")?;
        self.bytes.push(operation as u8);
        self.slot(names)?;
        self.slot(names)
    }
}

/// A number as a byte, if it fits.
fn byte(word: Word, number: usize) -> Result<u8, Fault> {
    number.try_into().map_err(|_| word.fault("there are too many for a byte"))
}

/// The number that a word with # stands for, nothing for another word.
fn numbered(word: Word) -> Result<Option<usize>, Fault> {
    match word.text.strip_prefix('#') {
        None => Ok(None),
        Some(digits) => match digits.parse::<u8>() {
            Ok(number) => Ok(Some(number.into())),
            Err(_) => Err(word.fault("a number from #0 to #255 is due")),
        },
    }
}

/// Which of some words this is.
fn one_of(word: Word, words: &[&str], reason: &str) -> Result<usize, Fault> {
    words.iter().position(|text| *text == word.text).ok_or_else(|| word.fault(reason))
}

/// A name that isn't in use yet.
fn new_name<'a>(word: Word, mut used: impl Iterator<Item = &'a String>) -> Result<String, Fault> {
    let plain = |letter: char| letter.is_ascii_alphanumeric() || letter == '_' || letter == '-';
    let reserved = [&["as", "else"], &SORTS[..], &MODES[..], &MARKS[..]].concat().contains(&word.text);
    if !word.text.chars().all(plain) || reserved {
        return Err(word.fault("a name is due"));
    }
    if word.text != "_" && used.any(|name| name == word.text) {
        return Err(word.fault("a name that is not in use is due"));
    }
    Ok(word.text.to_string())
}
