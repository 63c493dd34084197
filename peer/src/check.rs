//! The checker: one pass over the bytes reads the records, tracks the slots and fills the square of calls.

use crate::calls::Square;
use crate::declared::{Constructor, Declared, Function, Mode};
use crate::marks::*;
use crate::program::{Collect, Instruction, Nothing, Program};
use crate::{FILE_BYTES, NODES, Refusal, SLOTS, Verdict};

/// The result of reading something that a refusal can end.
type Read<T> = Result<T, Refusal>;

/// What a slot was bound as; whether it is used stands in the path.
#[derive(Clone, Copy, PartialEq, Eq)]
enum Kind {
    Number,
    Lent,
    Owned,
    Credit(u8),
}

/// What changes along a path: how many slots are bound, how many nodes stand on it, and a bit for each owned slot and credit that is not used.
#[derive(Clone, Copy, Default)]
struct Path {
    bound: u8,
    nodes: u8,
    left: u32,
}

/// A list whose next term comes after the present one.
#[derive(Clone, Copy)]
enum Pending {
    Branches { path: Path, lent: bool, count: u8, seen: u64, earlier: u16 },
    Second { path: Path, earlier: u16 },
}

/// Whether the term goes on after a node.
#[derive(PartialEq, Eq)]
enum Flow {
    Follows,
    Ends,
}

/// Checks a file.
pub fn check(file: &[u8]) -> Verdict {
    match accept(file, &mut Nothing) {
        Ok(accepted) => accepted.square.verdict(),
        Err(refusal) => refusal.into(),
    }
}

/// What is known of an accepted file.
pub struct Accepted {
    pub declared: Declared,
    square: Square,
}

/// Checks a file and decodes it.
pub fn decode(file: &[u8]) -> Read<(Declared, Program)> {
    let mut program = Program::new(file.len().min(FILE_BYTES));
    let accepted = accept(file, &mut program)?;
    Ok((accepted.declared, program))
}

/// Reads the file with its slots tracked; a fault of 7 to 12 counts only if reading alone finds nothing.
fn accept<C: Collect>(file: &[u8], collect: &mut C) -> Read<Accepted> {
    if file.len() > FILE_BYTES {
        return Err(Refusal::new(1, 0));
    }
    Pass::<true, C>::new(file, collect).file().or_else(|refusal| {
        if refusal.number >= 7 {
            Pass::<false, Nothing>::new(file, &mut Nothing).file()?;
        }
        Err(refusal)
    })
}

/// The state of the pass; without TRACK no slot is tested and no constructor is held against another.
struct Pass<'a, const TRACK: bool, C: Collect> {
    file: &'a [u8],
    place: usize,
    declared: Declared,
    square: Square,
    kinds: [Kind; SLOTS],
    path: Path,
    pending: Vec<Pending>,
    caller: usize,
    result_tree: bool,
    collect: &'a mut C,
}

impl<'a, const TRACK: bool, C: Collect> Pass<'a, TRACK, C> {
    /// A pass that stands at the file's first byte.
    fn new(file: &'a [u8], collect: &'a mut C) -> Self {
        Pass {
            file,
            place: 0,
            declared: Declared::new(),
            square: Square::new(),
            kinds: [Kind::Number; SLOTS],
            path: Path::default(),
            pending: Vec::with_capacity(16),
            caller: 0,
            result_tree: false,
            collect,
        }
    }

    /// Reads the whole file.
    fn file(mut self) -> Read<Accepted> {
        let after = self.declarations()?;
        for caller in 0..self.declared.function_count() {
            let mark = if caller == 0 { after } else { self.mark()? };
            if mark != BD {
                return Err(Refusal::new(3, self.place - 2));
            }
            self.body(caller)?;
        }
        if self.mark()? != ND {
            return Err(Refusal::new(3, self.place - 2));
        }
        if self.place < self.file.len() {
            return Err(Refusal::new(6, self.place));
        }
        Ok(Accepted { declared: self.declared, square: self.square })
    }

    /// Reads all CN and FN, and the mark after them.
    fn declarations(&mut self) -> Read<u16> {
        loop {
            let mark_place = self.place;
            match self.mark()? {
                CN if self.declared.function_count() == 0 => self.constructor(mark_place)?,
                FN => self.function(mark_place)?,
                mark if self.declared.function_count() > 0 => return Ok(mark),
                _ => return Err(Refusal::new(3, mark_place)),
            }
        }
    }

    /// Reads the fields of a CN.
    fn constructor(&mut self, mark_place: usize) -> Read<()> {
        let arity = self.up_to(4)?;
        let mut trees = 0;
        for index in 0..arity {
            trees |= self.up_to(1)? << index;
        }
        if self.declared.add_constructor(Constructor { arity, trees }) { Ok(()) } else { Err(Refusal::new(5, mark_place)) }
    }

    /// Reads the fields of an FN.
    fn function(&mut self, mark_place: usize) -> Read<()> {
        let mut function = Function { count: self.up_to(8)?, ..Function::default() };
        for index in 0..usize::from(function.count) {
            function.modes[index] = [Mode::Number, Mode::Lent, Mode::Owned][usize::from(self.up_to(2)?)];
        }
        function.result_tree = self.up_to(1)? == 1;
        if self.declared.add_function(function) { Ok(()) } else { Err(Refusal::new(5, mark_place)) }
    }

    /// Reads one body, whose term starts from the parameters.
    fn body(&mut self, caller: usize) -> Read<()> {
        let function = self.declared.function(caller as u8).copied().unwrap_or_default();
        self.collect.body(caller);
        self.caller = caller;
        self.result_tree = function.result_tree;
        self.path = Path::default();
        for mode in function.modes() {
            self.bind(match mode {
                Mode::Number => Kind::Number,
                Mode::Lent => Kind::Lent,
                Mode::Owned => Kind::Owned,
            });
        }
        loop {
            if self.node()? == Flow::Ends && !self.resume()? {
                return Ok(());
            }
        }
    }

    /// Goes on with the innermost list that has a term left, if any has.
    fn resume(&mut self) -> Read<bool> {
        while let Some(pending) = self.pending.pop() {
            match pending {
                Pending::Second { path, earlier } => {
                    self.path = path;
                    self.collect.point(earlier);
                    return Ok(true);
                }
                Pending::Branches { count: 0, .. } => {}
                Pending::Branches { path, lent, count, seen, earlier } => {
                    self.collect.point(earlier);
                    self.branch(path, lent, count, seen)?;
                    return Ok(true);
                }
            }
        }
        Ok(false)
    }

    /// Reads one node.
    #[inline(always)]
    fn node(&mut self) -> Read<Flow> {
        let mark_place = self.place;
        match self.mark()? {
            GV => self.give(mark_place),
            AT => self.atom(mark_place),
            MK => self.make(mark_place),
            CL => self.call(mark_place),
            TL => self.tail(mark_place),
            OP => self.list(mark_place, false),
            LK => self.list(mark_place, true),
            NU => self.constant(mark_place),
            AR => self.arithmetic(mark_place),
            IF => self.either(mark_place),
            _ => Err(Refusal::new(3, mark_place)),
        }
    }

    /// Reads a GV.
    fn give(&mut self, mark_place: usize) -> Read<Flow> {
        let at = self.place;
        let slot = self.byte()?;
        self.limits(mark_place, 0)?;
        if self.result_tree {
            self.owned(at, 0)?;
        } else {
            self.number(at)?;
        }
        self.nothing_left(mark_place)?;
        self.collect.take(mark_place, Instruction::Give { slot });
        Ok(Flow::Ends)
    }

    /// Reads an AT.
    fn atom(&mut self, mark_place: usize) -> Read<Flow> {
        let at = self.place;
        let constructor = self.byte()?;
        if self.declared.constructor(constructor.into()).is_none_or(|declared| declared.arity != 0) {
            return Err(Refusal::new(4, at));
        }
        self.limits(mark_place, 1)?;
        self.collect.take(mark_place, Instruction::Atom { constructor, bind: self.path.bound });
        self.bind(Kind::Owned);
        Ok(Flow::Follows)
    }

    /// Reads an MK.
    fn make(&mut self, mark_place: usize) -> Read<Flow> {
        let at = self.place;
        let constructor = self.byte()?;
        let declared = match self.declared.constructor(constructor.into()) {
            Some(declared) if declared.arity > 0 => declared,
            _ => return Err(Refusal::new(4, at)),
        };
        let arity = usize::from(declared.arity);
        let slots = self.slots(1 + arity)?;
        self.limits(mark_place, 1)?;
        self.credit(at + 1, declared.arity)?;
        for index in 0..arity {
            if declared.is_tree(index) {
                self.owned(at + 2 + index, 0)?;
            } else {
                self.number(at + 2 + index)?;
            }
        }
        let mut fields = [0; 4];
        fields[..arity].copy_from_slice(&slots[1..]);
        let make = Instruction::Make { constructor, credit: slots[0], arity: declared.arity, fields, bind: self.path.bound };
        self.collect.take(mark_place, make);
        self.bind(Kind::Owned);
        Ok(Flow::Follows)
    }

    /// Reads a CL.
    fn call(&mut self, mark_place: usize) -> Read<Flow> {
        let (number, function) = self.called()?;
        let at = self.place;
        let arguments = self.argument_slots(function.count)?;
        self.limits(mark_place, 1)?;
        self.hand_over(&function, at)?;
        self.square.add_waiting(self.caller, number);
        let bind = self.path.bound;
        self.collect.take(mark_place, Instruction::Call { function: number, count: function.count, arguments, bind });
        self.bind(if function.result_tree { Kind::Owned } else { Kind::Number });
        Ok(Flow::Follows)
    }

    /// Reads a TL.
    fn tail(&mut self, mark_place: usize) -> Read<Flow> {
        let (number, function) = self.called()?;
        let at = self.place;
        let arguments = self.argument_slots(function.count)?;
        self.limits(mark_place, 0)?;
        if TRACK && function.result_tree != self.result_tree {
            return Err(Refusal::new(8, at - 1));
        }
        self.hand_over(&function, at)?;
        self.nothing_left(mark_place)?;
        self.square.add_tail(self.caller, number);
        self.collect.take(mark_place, Instruction::Tail { function: number, count: function.count, arguments });
        Ok(Flow::Ends)
    }

    /// Reads an OP or an LK up to its first branch's term.
    fn list(&mut self, mark_place: usize, lent: bool) -> Read<Flow> {
        let at = self.place;
        let slot = self.byte()?;
        let count = self.byte()?;
        if count == 0 || count > 64 {
            return Err(Refusal::new(4, at + 1));
        }
        self.limits(mark_place, 0)?;
        if lent {
            self.lent_only(at)?;
            self.collect.take(mark_place, Instruction::Look { slot });
        } else {
            self.owned(at, 0)?;
            self.collect.take(mark_place, Instruction::Open { slot });
        }
        self.branch(self.path, lent, count, 0)?;
        Ok(Flow::Follows)
    }

    /// Reads a BR, the first of the given count of branches that start from this path.
    fn branch(&mut self, path: Path, lent: bool, count: u8, seen: u64) -> Read<()> {
        let mark_place = self.place;
        if self.mark()? != BR {
            return Err(Refusal::new(3, mark_place));
        }
        let number = self.byte()?;
        let Some(constructor) = self.declared.constructor(number.into()) else {
            return Err(Refusal::new(4, mark_place + 2));
        };
        let credit = !lent && constructor.arity > 0;
        if usize::from(path.bound + constructor.arity + u8::from(credit)) > SLOTS {
            return Err(Refusal::new(5, mark_place));
        }
        if TRACK && seen >> number & 1 == 1 {
            return Err(Refusal::new(12, mark_place + 2));
        }
        self.path = path;
        let head = Instruction::Branch { constructor: number, arity: constructor.arity, bind: path.bound, next: 0 };
        let earlier = self.collect.take(mark_place, head);
        self.bind_fields(constructor, lent);
        let seen = seen | 1 << number;
        self.pending.push(Pending::Branches { path, lent, count: count - 1, seen, earlier });
        Ok(())
    }

    /// Binds what a branch binds.
    fn bind_fields(&mut self, constructor: Constructor, lent: bool) {
        let tree = if lent { Kind::Lent } else { Kind::Owned };
        for index in 0..usize::from(constructor.arity) {
            self.bind(if constructor.is_tree(index) { tree } else { Kind::Number });
        }
        if !lent && constructor.arity > 0 {
            self.bind(Kind::Credit(constructor.arity));
        }
    }

    /// Reads an NU.
    fn constant(&mut self, mark_place: usize) -> Read<Flow> {
        let bytes = self.slots(2)?;
        self.limits(mark_place, 1)?;
        let constant = u16::from_be_bytes([bytes[0], bytes[1]]);
        self.collect.take(mark_place, Instruction::Number { constant, bind: self.path.bound });
        self.bind(Kind::Number);
        Ok(Flow::Follows)
    }

    /// Reads an AR.
    fn arithmetic(&mut self, mark_place: usize) -> Read<Flow> {
        let operation = self.up_to(3)?;
        let at = self.place;
        let slots = self.slots(2)?;
        self.limits(mark_place, 1)?;
        self.number(at)?;
        self.number(at + 1)?;
        let bind = self.path.bound;
        self.collect.take(mark_place, Instruction::Arithmetic { operation, left: slots[0], right: slots[1], bind });
        self.bind(Kind::Number);
        Ok(Flow::Follows)
    }

    /// Reads an IF up to its first term.
    fn either(&mut self, mark_place: usize) -> Read<Flow> {
        let at = self.place;
        let slot = self.byte()?;
        self.limits(mark_place, 0)?;
        self.number(at)?;
        let earlier = self.collect.take(mark_place, Instruction::If { slot, second: 0 });
        self.pending.push(Pending::Second { path: self.path, earlier });
        Ok(Flow::Follows)
    }

    /// Reads the function byte of a CL or TL.
    #[inline(always)]
    fn called(&mut self) -> Read<(u8, Function)> {
        let at = self.place;
        let number = self.byte()?;
        match self.declared.function(number) {
            Some(function) => Ok((number, *function)),
            None => Err(Refusal::new(4, at)),
        }
    }

    /// Reads the argument slots of a CL or TL.
    #[inline(always)]
    fn argument_slots(&mut self, count: u8) -> Read<[u8; 8]> {
        let mut arguments = [0; 8];
        let slots = self.slots(usize::from(count))?;
        for (argument, slot) in arguments.iter_mut().zip(slots) {
            *argument = *slot;
        }
        Ok(arguments)
    }

    /// Hands the argument slots that start at a place over to a function.
    #[inline(always)]
    fn hand_over(&mut self, function: &Function, at: usize) -> Read<()> {
        if !TRACK {
            return Ok(());
        }
        let mut earlier = 0;
        for (mode, at) in function.modes().iter().zip(at..) {
            let slot = match mode {
                Mode::Number => self.number(at)?,
                Mode::Lent => self.lent_or_owned(at)?,
                Mode::Owned => self.owned(at, earlier)?,
            };
            earlier |= 1 << (slot & 31);
        }
        Ok(())
    }

    /// Reads a mark.
    #[inline(always)]
    fn mark(&mut self) -> Read<u16> {
        let bytes = self.slots(2)?;
        Ok(u16::from_be_bytes([bytes[0], bytes[1]]))
    }

    /// Reads one byte.
    #[inline(always)]
    fn byte(&mut self) -> Read<u8> {
        match self.file.get(self.place) {
            Some(byte) => {
                self.place += 1;
                Ok(*byte)
            }
            None => Err(Refusal::new(2, self.file.len())),
        }
    }

    /// Reads a field that may be at most this.
    #[inline(always)]
    fn up_to(&mut self, greatest: u8) -> Read<u8> {
        let byte = self.byte()?;
        if byte > greatest { Err(Refusal::new(4, self.place - 1)) } else { Ok(byte) }
    }

    /// Reads this many bytes that have no range of their own.
    #[inline(always)]
    fn slots(&mut self, count: usize) -> Read<&'a [u8]> {
        match self.file.get(self.place..self.place + count) {
            Some(bytes) => {
                self.place += count;
                Ok(bytes)
            }
            None => Err(Refusal::new(2, self.file.len())),
        }
    }

    /// Counts a node and tests that the path still has room for it and for what it binds.
    #[inline(always)]
    fn limits(&mut self, mark_place: usize, binds: u8) -> Read<()> {
        if usize::from(self.path.nodes) == NODES || usize::from(self.path.bound + binds) > SLOTS {
            return Err(Refusal::new(5, mark_place));
        }
        self.path.nodes += 1;
        Ok(())
    }

    /// Binds the next slot.
    #[inline(always)]
    fn bind(&mut self, kind: Kind) {
        let slot = self.path.bound & 31;
        self.kinds[usize::from(slot)] = kind;
        let spendable = matches!(kind, Kind::Owned | Kind::Credit(_));
        let bit = 1 << slot;
        self.path.left = if spendable { self.path.left | bit } else { self.path.left & !bit };
        self.path.bound += 1;
    }

    /// The slot named at a place and what it was bound as.
    #[inline(always)]
    fn slot(&self, at: usize) -> Read<(u8, Kind)> {
        let slot = self.file[at];
        if slot >= self.path.bound {
            return Err(Refusal::new(7, at));
        }
        Ok((slot, self.kinds[usize::from(slot & 31)]))
    }

    /// Takes a number slot.
    #[inline(always)]
    fn number(&self, at: usize) -> Read<u8> {
        if !TRACK {
            return Ok(0);
        }
        match self.slot(at)? {
            (slot, Kind::Number) => Ok(slot),
            _ => Err(Refusal::new(8, at)),
        }
    }

    /// Takes a lent slot for LK.
    #[inline(always)]
    fn lent_only(&self, at: usize) -> Read<()> {
        if !TRACK {
            return Ok(());
        }
        match self.slot(at)? {
            (_, Kind::Lent) => Ok(()),
            _ => Err(Refusal::new(8, at)),
        }
    }

    /// Takes a slot for a lent parameter.
    #[inline(always)]
    fn lent_or_owned(&self, at: usize) -> Read<u8> {
        match self.slot(at)? {
            (slot, Kind::Lent) => Ok(slot),
            (slot, Kind::Owned) if self.path.left >> (slot & 31) & 1 == 1 => Ok(slot),
            (_, Kind::Owned) => Err(Refusal::new(9, at)),
            _ => Err(Refusal::new(8, at)),
        }
    }

    /// Takes an owned slot, which becomes used; slots that stand earlier in the list count as used.
    #[inline(always)]
    fn owned(&mut self, at: usize, earlier: u32) -> Read<u8> {
        if !TRACK {
            return Ok(0);
        }
        let (slot, kind) = self.slot(at)?;
        if kind != Kind::Owned {
            return Err(Refusal::new(8, at));
        }
        self.spend(slot, at, earlier)?;
        Ok(slot)
    }

    /// Takes a credit of this size, which becomes used.
    #[inline(always)]
    fn credit(&mut self, at: usize, arity: u8) -> Read<()> {
        if !TRACK {
            return Ok(());
        }
        let (slot, kind) = self.slot(at)?;
        let Kind::Credit(size) = kind else { return Err(Refusal::new(8, at)) };
        self.spend(slot, at, 0)?;
        if size == arity { Ok(()) } else { Err(Refusal::new(10, at)) }
    }

    /// Makes an owned slot or a credit used, if it is not yet.
    #[inline(always)]
    fn spend(&mut self, slot: u8, at: usize, earlier: u32) -> Read<()> {
        let bit = 1 << (slot & 31);
        if self.path.left & !earlier & bit == 0 {
            return Err(Refusal::new(9, at));
        }
        self.path.left &= !bit;
        Ok(())
    }

    /// Tests that nothing owned and no credit is left.
    #[inline(always)]
    fn nothing_left(&self, mark_place: usize) -> Read<()> {
        if TRACK && self.path.left != 0 { Err(Refusal::new(11, mark_place)) } else { Ok(()) }
    }
}
