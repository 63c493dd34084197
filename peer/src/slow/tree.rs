//! A file read into a tree of terms, with the refusals 1 to 6.

use crate::{CONSTRUCTORS, FILE_BYTES, FUNCTIONS, NODES, Refusal, SLOTS};

/// The result of reading something.
type Read<T> = Result<T, Refusal>;

/// What a field of a constructor or a function's result is.
#[derive(Clone, Copy, Debug, PartialEq, Eq)]
pub enum Sort {
    Number,
    Tree,
}

/// How a parameter takes its argument.
#[derive(Clone, Copy, Debug, PartialEq, Eq)]
pub enum Mode {
    Number,
    Lent,
    Owned,
}

/// A byte of the file with its place.
#[derive(Clone, Copy, Debug)]
pub struct Byte {
    pub value: usize,
    pub place: usize,
}

/// A function without its body.
#[derive(Clone, Debug)]
pub struct Function {
    pub modes: Vec<Mode>,
    pub result: Sort,
}

/// A whole file.
#[derive(Clone, Debug, Default)]
pub struct Rules {
    pub constructors: Vec<Vec<Sort>>,
    pub functions: Vec<Function>,
    pub bodies: Vec<Term>,
}

/// A node and the terms that follow it.
#[derive(Clone, Debug)]
pub struct Term {
    pub mark: usize,
    pub node: Node,
}

/// What stands at a node.
#[derive(Clone, Debug)]
pub enum Node {
    Give { slot: Byte },
    Atom { constructor: Byte, next: Box<Term> },
    Make { constructor: Byte, credit: Byte, fields: Vec<Byte>, next: Box<Term> },
    Call { function: Byte, arguments: Vec<Byte>, next: Box<Term> },
    Tail { function: Byte, arguments: Vec<Byte> },
    Open { slot: Byte, branches: Vec<Branch> },
    Look { slot: Byte, branches: Vec<Branch> },
    Number { constant: u32, next: Box<Term> },
    Arithmetic { operation: usize, left: Byte, right: Byte, next: Box<Term> },
    If { slot: Byte, first: Box<Term>, second: Box<Term> },
}

/// One branch of a list.
#[derive(Clone, Debug)]
pub struct Branch {
    pub mark: usize,
    pub constructor: Byte,
    pub term: Term,
}

/// How many slots and nodes a path has so far.
#[derive(Clone, Copy)]
struct Path {
    slots: usize,
    nodes: usize,
}

/// Reads a file.
pub fn read(file: &[u8]) -> Read<Rules> {
    if file.len() > FILE_BYTES {
        return Err(Refusal::new(1, 0));
    }
    let mut reader = Reader { file, place: 0, rules: Rules::default() };
    while reader.comes(b"CN")? {
        reader.constructor()?;
    }
    reader.function()?;
    while reader.comes(b"FN")? {
        reader.function()?;
    }
    for function in 0..reader.rules.functions.len() {
        reader.expect(b"BD")?;
        let path = Path { slots: reader.rules.functions[function].modes.len(), nodes: 0 };
        let term = reader.term(path)?;
        reader.rules.bodies.push(term);
    }
    reader.expect(b"ND")?;
    if reader.place != file.len() {
        return Err(Refusal::new(6, reader.place));
    }
    Ok(reader.rules)
}

/// Reads from a place on.
struct Reader<'a> {
    file: &'a [u8],
    place: usize,
    rules: Rules,
}

impl Reader<'_> {
    /// The two bytes of the mark that is due.
    fn due(&self) -> Read<[u8; 2]> {
        if self.file.len() - self.place < 2 {
            return Err(Refusal::new(2, self.file.len()));
        }
        Ok([self.file[self.place], self.file[self.place + 1]])
    }

    /// Whether this mark comes next.
    fn comes(&self, mark: &[u8; 2]) -> Read<bool> {
        Ok(self.due()? == *mark)
    }

    /// Reads this mark and gives its place.
    fn expect(&mut self, mark: &[u8; 2]) -> Read<usize> {
        let place = self.place;
        if !self.comes(mark)? {
            return Err(Refusal::new(3, place));
        }
        self.place += 2;
        Ok(place)
    }

    /// Reads one byte.
    fn byte(&mut self) -> Read<Byte> {
        let place = self.place;
        if place == self.file.len() {
            return Err(Refusal::new(2, place));
        }
        self.place += 1;
        Ok(Byte { value: self.file[place].into(), place })
    }

    /// Reads one byte that satisfies a condition.
    fn field(&mut self, holds: impl Fn(&Rules, usize) -> bool) -> Read<Byte> {
        let byte = self.byte()?;
        if holds(&self.rules, byte.value) { Ok(byte) } else { Err(Refusal::new(4, byte.place)) }
    }

    /// Reads this many bytes.
    fn bytes(&mut self, count: usize) -> Read<Vec<Byte>> {
        (0..count).map(|_| self.byte()).collect()
    }

    /// Reads a sort.
    fn sort(&mut self) -> Read<Sort> {
        let byte = self.field(|_, value| value <= 1)?;
        Ok(if byte.value == 0 { Sort::Number } else { Sort::Tree })
    }

    /// Reads a mode.
    fn mode(&mut self) -> Read<Mode> {
        let byte = self.field(|_, value| value <= 2)?;
        Ok([Mode::Number, Mode::Lent, Mode::Owned][byte.value])
    }

    /// Reads a CN.
    fn constructor(&mut self) -> Read<()> {
        let mark = self.expect(b"CN")?;
        let arity = self.field(|_, value| value <= 4)?;
        let sorts = (0..arity.value).map(|_| self.sort()).collect::<Read<Vec<Sort>>>()?;
        self.rules.constructors.push(sorts);
        limit(self.rules.constructors.len() <= CONSTRUCTORS, mark)
    }

    /// Reads an FN.
    fn function(&mut self) -> Read<()> {
        let mark = self.expect(b"FN")?;
        let count = self.field(|_, value| value <= 8)?;
        let modes = (0..count.value).map(|_| self.mode()).collect::<Read<Vec<Mode>>>()?;
        let result = self.sort()?;
        self.rules.functions.push(Function { modes, result });
        limit(self.rules.functions.len() <= FUNCTIONS, mark)
    }

    /// Reads a term after a path.
    fn term(&mut self, path: Path) -> Read<Term> {
        let (mark, name) = (self.place, self.due()?);
        self.place += 2;
        let node = match &name {
            b"GV" => self.give(mark, path)?,
            b"AT" => self.atom(mark, path)?,
            b"MK" => self.make(mark, path)?,
            b"CL" => self.call(mark, path)?,
            b"TL" => self.tail(mark, path)?,
            b"OP" => self.open(mark, path)?,
            b"LK" => self.look(mark, path)?,
            b"NU" => self.number(mark, path)?,
            b"AR" => self.arithmetic(mark, path)?,
            b"IF" => self.either(mark, path)?,
            _ => return Err(Refusal::new(3, mark)),
        };
        Ok(Term { mark, node })
    }

    /// Reads the term after a node that binds one slot.
    fn next(&mut self, mark: usize, path: Path) -> Read<Box<Term>> {
        let path = extend(path, 1, 1, mark)?;
        Ok(Box::new(self.term(path)?))
    }

    /// Reads the rest of a GV.
    fn give(&mut self, mark: usize, path: Path) -> Read<Node> {
        let slot = self.byte()?;
        extend(path, 1, 0, mark)?;
        Ok(Node::Give { slot })
    }

    /// Reads the rest of an AT.
    fn atom(&mut self, mark: usize, path: Path) -> Read<Node> {
        let constructor = self.field(|rules, value| rules.constructors.get(value).is_some_and(|sorts| sorts.is_empty()))?;
        Ok(Node::Atom { constructor, next: self.next(mark, path)? })
    }

    /// Reads the rest of an MK.
    fn make(&mut self, mark: usize, path: Path) -> Read<Node> {
        let constructor = self.field(|rules, value| rules.constructors.get(value).is_some_and(|sorts| !sorts.is_empty()))?;
        let credit = self.byte()?;
        let fields = self.bytes(self.rules.constructors[constructor.value].len())?;
        Ok(Node::Make { constructor, credit, fields, next: self.next(mark, path)? })
    }

    /// Reads the rest of a CL.
    fn call(&mut self, mark: usize, path: Path) -> Read<Node> {
        let function = self.field(|rules, value| value < rules.functions.len())?;
        let arguments = self.bytes(self.rules.functions[function.value].modes.len())?;
        Ok(Node::Call { function, arguments, next: self.next(mark, path)? })
    }

    /// Reads the rest of a TL.
    fn tail(&mut self, mark: usize, path: Path) -> Read<Node> {
        let function = self.field(|rules, value| value < rules.functions.len())?;
        let arguments = self.bytes(self.rules.functions[function.value].modes.len())?;
        extend(path, 1, 0, mark)?;
        Ok(Node::Tail { function, arguments })
    }

    /// Reads the rest of an OP.
    fn open(&mut self, mark: usize, path: Path) -> Read<Node> {
        let (slot, branches) = self.list(mark, path, |arity| if arity == 0 { 0 } else { arity + 1 })?;
        Ok(Node::Open { slot, branches })
    }

    /// Reads the rest of an LK.
    fn look(&mut self, mark: usize, path: Path) -> Read<Node> {
        let (slot, branches) = self.list(mark, path, |arity| arity)?;
        Ok(Node::Look { slot, branches })
    }

    /// Reads a slot and a list of branches; a branch binds as many slots as `binds` says for its arity.
    fn list(&mut self, mark: usize, path: Path, binds: impl Fn(usize) -> usize) -> Read<(Byte, Vec<Branch>)> {
        let slot = self.byte()?;
        let count = self.field(|_, value| (1..=64).contains(&value))?;
        let path = extend(path, 1, 0, mark)?;
        let mut branches = Vec::new();
        for _ in 0..count.value {
            let mark = self.expect(b"BR")?;
            let constructor = self.field(|rules, value| value < rules.constructors.len())?;
            let arity = self.rules.constructors[constructor.value].len();
            let path = extend(path, 0, binds(arity), mark)?;
            let term = self.term(path)?;
            branches.push(Branch { mark, constructor, term });
        }
        Ok((slot, branches))
    }

    /// Reads the rest of an NU.
    fn number(&mut self, mark: usize, path: Path) -> Read<Node> {
        let high = self.byte()?.value as u32;
        let low = self.byte()?.value as u32;
        Ok(Node::Number { constant: high * 256 + low, next: self.next(mark, path)? })
    }

    /// Reads the rest of an AR.
    fn arithmetic(&mut self, mark: usize, path: Path) -> Read<Node> {
        let operation = self.field(|_, value| value <= 3)?.value;
        let left = self.byte()?;
        let right = self.byte()?;
        Ok(Node::Arithmetic { operation, left, right, next: self.next(mark, path)? })
    }

    /// Reads the rest of an IF.
    fn either(&mut self, mark: usize, path: Path) -> Read<Node> {
        let slot = self.byte()?;
        let path = extend(path, 1, 0, mark)?;
        let first = Box::new(self.term(path)?);
        let second = Box::new(self.term(path)?);
        Ok(Node::If { slot, first, second })
    }
}

/// Refuses with 5 at a mark if a limit is not kept.
fn limit(kept: bool, mark: usize) -> Read<()> {
    if kept { Ok(()) } else { Err(Refusal::new(5, mark)) }
}

/// A path with some nodes and slots more.
fn extend(path: Path, nodes: usize, slots: usize, mark: usize) -> Read<Path> {
    let path = Path { slots: path.slots + slots, nodes: path.nodes + nodes };
    limit(path.slots <= SLOTS && path.nodes <= NODES, mark)?;
    Ok(path)
}
