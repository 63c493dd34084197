//! Files grown node by node so that the ownership rules hold.

use super::{Random, known};
use crate::slow::slots::{Kind, Slot, branch_kinds, parameter_kind, result_kind};
use crate::slow::tree::{Mode, Sort};

/// The parameters and the result of a function.
#[derive(Clone)]
pub struct Signature {
    pub modes: Vec<Mode>,
    pub result: Sort,
}

/// What a file declares.
#[derive(Clone, Default)]
pub struct Shapes {
    pub constructors: Vec<Vec<Sort>>,
    pub functions: Vec<Signature>,
}

/// Slots on the way that growth keeps free for closing a term.
const ROOM: usize = 8;

/// A random sort that is a tree so many times in a hundred.
fn sort(random: &mut Random, tree: usize) -> Sort {
    if random.percent(tree) { Sort::Tree } else { Sort::Number }
}

/// Random shapes; half of them contain the known functions, behind the random ones.
pub fn shapes(random: &mut Random) -> (Shapes, bool) {
    let with_known = random.percent(50);
    let mut shapes = Shapes::default();
    if with_known {
        shapes.constructors = known::constructors();
    } else if random.percent(95) {
        shapes.constructors.push(vec![]);
    }
    for _ in 0..random.rarely(5, 40, 4) {
        let arity = random.below(5);
        shapes.constructors.push((0..arity).map(|_| sort(random, 60)).collect());
    }
    for _ in 0..1 + random.rarely(5, 20, 4) {
        let count = random.rarely(10, 9, 4);
        let modes = (0..count).map(|_| random.pick(&[Mode::Number, Mode::Lent, Mode::Owned, Mode::Owned])).collect::<Option<_>>();
        shapes.functions.push(Signature { modes: modes.unwrap_or_default(), result: sort(random, 70) });
    }
    if with_known {
        known::add(&mut shapes);
    }
    (shapes, with_known)
}

/// A random file and what it declares.
pub fn file(random: &mut Random) -> (Vec<u8>, Shapes) {
    let (shapes, with_known) = shapes(random);
    let own = shapes.functions.len() - if with_known { known::KNOWN.len() } else { 0 };
    let faults = if random.percent(20) { 10 } else { 0 };
    let mut grower = Grower { random, shapes, bytes: Vec::new(), faults };
    grower.declare();
    for function in 0..own {
        grower.body(function);
    }
    if with_known {
        for (index, known) in known::KNOWN.iter().enumerate() {
            grower.bytes.extend(b"BD");
            grower.bytes.extend((known.body)((own + index) as u8));
        }
    }
    grower.bytes.extend(b"ND");
    (grower.bytes, grower.shapes)
}

/// The records that declare shapes.
pub fn declarations(shapes: &Shapes) -> Vec<u8> {
    let mut bytes = Vec::new();
    for sorts in &shapes.constructors {
        bytes.extend(b"CN");
        bytes.push(sorts.len() as u8);
        bytes.extend(sorts.iter().map(|sort| *sort as u8));
    }
    for function in &shapes.functions {
        bytes.extend(b"FN");
        bytes.push(function.modes.len() as u8);
        bytes.extend(function.modes.iter().map(|mode| *mode as u8));
        bytes.push(function.result as u8);
    }
    bytes
}

/// A path: its slots, its nodes, the result it works for, and how many nodes it may still grow.
#[derive(Clone)]
struct Path {
    slots: Vec<Slot>,
    nodes: usize,
    result: Sort,
    fuel: usize,
}

impl Path {
    /// The slots of a kind that are not used.
    fn of(&self, holds: impl Fn(Kind) -> bool) -> Vec<usize> {
        (0..self.slots.len()).filter(|index| !self.slots[*index].used && holds(self.slots[*index].kind)).collect()
    }

    /// The number slots.
    fn numbers(&self) -> Vec<usize> {
        self.of(|kind| kind == Kind::Number)
    }

    /// The owned slots.
    fn owned(&self) -> Vec<usize> {
        self.of(|kind| kind == Kind::Owned)
    }

    /// The lent slots.
    fn lent(&self) -> Vec<usize> {
        self.of(|kind| kind == Kind::Lent)
    }

    /// The credits with their sizes, those that are used too if they are wanted.
    fn credits(&self, used: bool) -> Vec<(usize, usize)> {
        let mut credits = Vec::new();
        for (index, slot) in self.slots.iter().enumerate() {
            if let Kind::Credit(size) = slot.kind
                && (used || !slot.used)
            {
                credits.push((index, size));
            }
        }
        credits
    }

    /// Makes a slot used if it is bound and spent.
    fn spend(&mut self, index: usize, spent: bool) {
        if let Some(slot) = self.slots.get_mut(index) {
            slot.used |= spent;
        }
    }

    /// Binds the next slot.
    fn bind(&mut self, kind: Kind) {
        self.slots.push(Slot::new(kind));
    }
}

/// What grows a file; so many times in a hundred it breaks a rule on purpose.
struct Grower<'a> {
    random: &'a mut Random,
    shapes: Shapes,
    bytes: Vec<u8>,
    faults: usize,
}

impl Grower<'_> {
    /// Writes the declarations.
    fn declare(&mut self) {
        self.bytes = declarations(&self.shapes);
    }

    /// Grows the body of a function.
    fn body(&mut self, function: usize) {
        self.bytes.extend(b"BD");
        let Signature { modes, result } = self.shapes.functions[function].clone();
        let slots = modes.iter().map(|mode| Slot::new(parameter_kind(*mode))).collect();
        let fuel = self.random.rarely(10, 30, 9);
        self.term(Path { slots, nodes: 0, result, fuel });
    }

    /// Writes a mark and its fields, and counts the node.
    fn record(&mut self, path: &mut Path, mark: &[u8; 2], fields: &[usize]) {
        self.bytes.extend(mark);
        self.bytes.extend(fields.iter().map(|field| *field as u8));
        path.nodes += 1;
        path.fuel = path.fuel.saturating_sub(1);
    }

    /// Whether to break a rule here.
    fn fault(&mut self) -> bool {
        self.random.percent(self.faults)
    }

    /// Some slots of a path: those that satisfy a condition, or, to break a rule, any number up to one too many.
    fn some(&mut self, path: &Path, fitting: Vec<usize>) -> Vec<usize> {
        if self.fault() { (0..=path.slots.len()).collect() } else { fitting }
    }

    /// Grows a term.
    fn term(&mut self, mut path: Path) {
        loop {
            if path.fuel == 0 || path.slots.len() + ROOM > 26 || path.nodes > 45 || self.bytes.len() > 3600 {
                return self.close(path);
            }
            match self.random.below(10) {
                0 => self.constant(&mut path),
                1 => self.arithmetic(&mut path),
                2 => self.atom(&mut path),
                3 => drop(self.make(&mut path)),
                4 => self.call(&mut path),
                5 if self.tail(&path) => return,
                6 | 7 if self.open(&path) => return,
                8 if self.look(&path) => return,
                9 if path.fuel > 2 && self.either(&path) => return,
                _ => path.fuel -= 1,
            }
        }
    }

    /// Grows an NU.
    fn constant(&mut self, path: &mut Path) {
        let constant = self.random.rarely(30, 65_536, 4);
        self.record(path, b"NU", &[constant / 256, constant % 256]);
        path.bind(Kind::Number);
    }

    /// Grows an AR, if there is a number.
    fn arithmetic(&mut self, path: &mut Path) {
        let numbers = self.some(path, path.numbers());
        let operation = self.random.below(4);
        if let (Some(left), Some(right)) = (self.random.pick(&numbers), self.random.pick(&numbers)) {
            self.record(path, b"AR", &[operation, left, right]);
            path.bind(Kind::Number);
        }
    }

    /// The constructors of an arity that satisfies a condition.
    fn with_arity(&self, holds: impl Fn(usize) -> bool) -> Vec<usize> {
        (0..self.shapes.constructors.len().min(64)).filter(|index| holds(self.shapes.constructors[*index].len())).collect()
    }

    /// Grows an AT, if there is an atom.
    fn atom(&mut self, path: &mut Path) {
        let atoms = self.with_arity(|arity| arity == 0);
        if let Some(atom) = self.random.pick(&atoms) {
            self.record(path, b"AT", &[atom]);
            path.bind(Kind::Owned);
        }
    }

    /// Grows an MK, if there is a credit, with what it lacks bound before; says whether it did.
    fn make(&mut self, path: &mut Path) -> bool {
        let used = self.fault();
        let Some((credit, size)) = self.random.pick(&path.credits(used)) else { return false };
        let other_size = self.fault();
        let constructors = self.with_arity(|arity| arity == size || other_size && arity > 0);
        let Some(constructor) = self.random.pick(&constructors) else { return false };
        let sorts = self.shapes.constructors[constructor].clone();
        if sorts.contains(&Sort::Number) && path.numbers().is_empty() {
            self.constant(path);
        }
        let trees = sorts.iter().filter(|sort| **sort == Sort::Tree).count();
        while path.owned().len() < trees {
            let before = path.slots.len();
            self.atom(path);
            if path.slots.len() == before {
                return false;
            }
        }
        let numbers = self.some(path, path.numbers());
        let mut owned = self.some(path, path.owned());
        self.random.shuffle(&mut owned);
        let mut fields = vec![constructor, credit];
        path.slots[credit].used = true;
        for sort in sorts {
            let slot = if sort == Sort::Number { self.random.pick(&numbers) } else { owned.pop() }.unwrap_or(0);
            path.spend(slot, sort == Sort::Tree);
            fields.push(slot);
        }
        self.record(path, b"MK", &fields);
        path.bind(Kind::Owned);
        true
    }

    /// Argument slots for a function, if there are any that fit.
    fn arguments(&mut self, path: &Path, modes: &[Mode]) -> Option<Vec<usize>> {
        let mut chosen = Vec::new();
        let mut handed = Vec::new();
        for mode in modes {
            let mut fitting = match mode {
                Mode::Number => path.numbers(),
                Mode::Lent => path.of(|kind| matches!(kind, Kind::Lent | Kind::Owned)),
                Mode::Owned => path.owned(),
            };
            let barred = if *mode == Mode::Owned { &chosen } else { &handed };
            fitting.retain(|slot| !barred.contains(slot));
            let fitting = self.some(path, fitting);
            let slot = self.random.pick(&fitting)?;
            chosen.push(slot);
            if *mode == Mode::Owned {
                handed.push(slot);
            }
        }
        Some(chosen)
    }

    /// Grows a CL, if some function can be called.
    fn call(&mut self, path: &mut Path) {
        let function = self.random.below(self.shapes.functions.len().min(32));
        let Signature { modes, result } = self.shapes.functions[function].clone();
        let Some(arguments) = self.arguments(path, &modes) else { return };
        for (mode, slot) in modes.iter().zip(&arguments) {
            path.spend(*slot, *mode == Mode::Owned);
        }
        let mut fields = vec![function];
        fields.extend(arguments);
        self.record(path, b"CL", &fields);
        path.bind(result_kind(result));
    }

    /// Grows a TL that leaves nothing over, if some function can be called so; says whether it did.
    fn tail(&mut self, path: &Path) -> bool {
        let mut owned = path.owned();
        let other_result = self.fault();
        let fits = |signature: &Signature| {
            (signature.result == path.result || other_result)
                && signature.modes.iter().filter(|mode| **mode == Mode::Owned).count() == owned.len()
        };
        let functions: Vec<usize> =
            (0..self.shapes.functions.len().min(32)).filter(|index| fits(&self.shapes.functions[*index])).collect();
        let Some(function) = self.random.pick(&functions) else { return false };
        self.random.shuffle(&mut owned);
        let mut fields = vec![function];
        for mode in self.shapes.functions[function].modes.clone() {
            let slot = match mode {
                Mode::Number => self.random.pick(&path.numbers()),
                Mode::Lent => self.random.pick(&path.lent()),
                Mode::Owned => owned.pop(),
            };
            fields.extend(slot);
        }
        if !path.credits(false).is_empty() || fields.len() != 1 + self.shapes.functions[function].modes.len() {
            return false;
        }
        self.record(&mut path.clone(), b"TL", &fields);
        true
    }

    /// Grows an OP, if there is an owned slot; says whether it did.
    fn open(&mut self, path: &Path) -> bool {
        let owned = self.some(path, path.owned());
        let Some(slot) = self.random.pick(&owned) else { return false };
        let mut path = path.clone();
        path.spend(slot, true);
        self.list(path, b"OP", slot, true)
    }

    /// Grows an LK, if there is a lent slot; says whether it did.
    fn look(&mut self, path: &Path) -> bool {
        let lent = self.some(path, path.lent());
        let Some(slot) = self.random.pick(&lent) else { return false };
        self.list(path.clone(), b"LK", slot, false)
    }

    /// Grows a list of branches: mostly all constructors, sometimes only some.
    fn list(&mut self, mut path: Path, mark: &[u8; 2], slot: usize, open: bool) -> bool {
        let mut constructors = self.with_arity(|_| true);
        self.random.shuffle(&mut constructors);
        if constructors.is_empty() {
            return false;
        }
        if self.fault() {
            constructors.push(constructors[0]);
        }
        if self.random.percent(25) || constructors.len() > 12 {
            constructors.truncate(1 + self.random.below(constructors.len().min(12)));
        }
        self.record(&mut path, mark, &[slot, constructors.len()]);
        for constructor in constructors {
            self.bytes.extend(b"BR");
            self.bytes.push(constructor as u8);
            let mut inside = path.clone();
            inside.slots.extend(branch_kinds(&self.shapes.constructors[constructor], open).into_iter().map(Slot::new));
            inside.fuel = self.random.below(path.fuel + 1);
            self.term(inside);
        }
        true
    }

    /// Grows an IF, if there is a number; says whether it did.
    fn either(&mut self, path: &Path) -> bool {
        let numbers = self.some(path, path.numbers());
        let Some(slot) = self.random.pick(&numbers) else { return false };
        let mut path = path.clone();
        self.record(&mut path, b"IF", &[slot]);
        for _ in 0..2 {
            let fuel = self.random.below(path.fuel + 1);
            self.term(Path { fuel, ..path.clone() });
        }
        true
    }

    /// Ends a term: credits are made into trees, and trees handed over, given back or opened as atoms.
    fn close(&mut self, mut path: Path) {
        while !self.fault() && self.make(&mut path) {}
        if self.random.percent(50) && self.tail(&path) {
            return;
        }
        let numbers = self.some(&path, path.numbers());
        let owned = path.owned();
        match (path.result, owned.as_slice()) {
            (Sort::Tree, [slot]) => self.record(&mut path, b"GV", &[*slot]),
            (Sort::Number, []) if !numbers.is_empty() => {
                let last = numbers[numbers.len() - 1];
                let slot = if self.random.percent(60) { last } else { self.random.pick(&numbers).unwrap_or(0) };
                self.record(&mut path, b"GV", &[slot]);
            }
            (Sort::Number, []) => {
                self.constant(&mut path);
                self.record(&mut path.clone(), b"GV", &[path.slots.len() - 1]);
            }
            (Sort::Tree, []) => {
                self.atom(&mut path);
                self.record(&mut path.clone(), b"GV", &[path.slots.len().max(1) - 1]);
            }
            _ if self.tail(&path) => {}
            _ => self.drop_one(path, &owned),
        }
    }

    /// Spends one owned slot by a call or by opening it as an atom, and goes on closing.
    fn drop_one(&mut self, mut path: Path, owned: &[usize]) {
        if self.random.percent(60) && path.slots.len() < 30 && path.nodes < 56 {
            self.call(&mut path);
            return self.close(path);
        }
        let slot = self.random.pick(owned).unwrap_or(0);
        let atoms = self.with_arity(|arity| arity == 0);
        let atom = self.random.pick(&atoms).unwrap_or(0);
        path.slots[slot].used = true;
        self.record(&mut path, b"OP", &[slot, 1]);
        self.bytes.extend(b"BR");
        self.bytes.push(atom as u8);
        self.close(path);
    }
}
