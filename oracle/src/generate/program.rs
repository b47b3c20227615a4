//! Well-formed programs that do something: loops with counters, calls, switches and lookups over names, loads and stores in
//! blocks, allocations across pages, doubles, casts.
use super::rng::Rng;
use super::values;
use crate::image::{Image, Lookup, Switch};
use crate::machine::Lent;
use crate::model::word::op;

// What each register is for, so that a program keeps the original's conditions whatever way it takes.
const INTS: u64 = 10;
const FINITE: [u64; 4] = [10, 11, 12, 13];
const PATTERNS: [u64; 2] = [14, 15];
/// FINITE and PATTERNS.
const DOUBLES: [u64; 6] = [10, 11, 12, 13, 14, 15];
const POINTERS: [u64; 3] = [16, 17, 18];
const WITHIN: u64 = 19;
const NAMES: [u64; 3] = [20, 21, 22];
const CONDITION: u64 = 23;
/// One for each level of loops: three in the program, three in the first function, one in those after it.
const COUNTERS: [u64; 7] = [24, 25, 26, 27, 28, 29, 30];
const RECURSION: u64 = 31;

/// A word with three bytes and the high half.
pub fn word(opcode: u8, a: u64, b: u64, c: u64, high: u32) -> u64 {
    u64::from(opcode) | a << 8 | b << 16 | c << 24 | u64::from(high) << 32
}

fn jump(opcode: u8, register: u64, high: u32) -> u64 {
    word(opcode, register, 0, 0, high)
}

struct Builder<'a> {
    rng: &'a mut Rng,
    image: Image,
    /// the places of the names' globals, and their values
    names: &'a [(usize, u64)],
    /// least sizes of the blocks that the pointers hold
    sizes: [u64; 3],
    /// `Call` and `Tail` words, and the function that each one names
    uses: Vec<(usize, usize)>,
    functions: usize,
    frames: u64,
    base: u64,
}

/// How deep in loops and branches, and how often a statement here is done in one go through the program.
#[derive(Clone, Copy)]
struct At {
    function: usize,
    loops: usize,
    nested: u64,
    times: u64,
}

impl Builder<'_> {
    fn here(&self) -> usize {
        self.image.code.len()
    }

    fn emit(&mut self, word: u64) -> usize {
        self.image.code.push(word);
        self.here() - 1
    }

    /// Sets the target of a jump emitted before.
    fn land(&mut self, jump: usize) {
        let here = self.here() as u64;
        self.image.code[jump] |= here << 16;
    }

    fn int(&mut self) -> u64 {
        self.rng.below(INTS)
    }

    /// A register to read: mostly an int, any at times.
    fn any(&mut self) -> u64 {
        if self.rng.one_in(4) { self.rng.below(32) } else { self.int() }
    }

    fn global(&mut self, value: u64) -> u32 {
        let globals = &mut self.image.globals;
        if let Some(i) = globals.iter().position(|&v| v == value) {
            return i as u32;
        }
        globals.push(value);
        globals.len() as u32 - 1
    }

    fn load(&mut self, register: u64, value: u64) {
        let idx = self.global(value);
        self.emit(word(op::LoadG, register, 0, 0, idx));
    }

    fn block_size(&mut self) -> u64 {
        match self.rng.below(8) {
            0 => self.rng.from_to(8, 24),
            1..=5 => 8 * self.rng.from_to(1, 12),
            6 => self.rng.from_to(100, 1500),
            // about the edges of a page
            _ => *self.rng.one_of(&[4040, 4047, 4048, 4049, 4056, 4072, 4073, 4096, 8168, 8169]),
        }
    }

    fn prologue(&mut self) {
        for r in 0..INTS {
            if self.rng.one_in(2) {
                let value = values::int(self.rng);
                self.load(r, value);
            } else {
                let imm = values::imm(self.rng);
                self.emit(word(op::LoadI, r, 0, 0, imm));
            }
        }
        for r in FINITE {
            let value = values::finite(self.rng);
            self.load(r, value);
        }
        for r in PATTERNS {
            let value = values::double(self.rng);
            self.load(r, value);
        }
        for i in 0..POINTERS.len() {
            self.sizes[i] = self.block_size();
            self.alloc(i);
        }
        self.emit(word(op::Mov, WITHIN, POINTERS[0], 0, 0));
        for r in NAMES {
            self.name(r);
        }
    }

    /// A block for a pointer, at least as large as the one before.
    fn alloc(&mut self, pointer: usize) {
        let more = if self.rng.one_in(3) { self.rng.below(20) } else { 0 };
        let kind = self.rng.below(4);
        let align = *self.rng.one_of(&[1, 2, 4, 8]);
        self.emit(word(op::Alloc, POINTERS[pointer], kind, align, (self.sizes[pointer] + more) as u32));
    }

    fn name(&mut self, register: u64) {
        match self.names {
            [] => self.emit(word(op::LoadI, register, 0, 0, 0)),
            names => {
                let (global, _) = *self.rng.one_of(names);
                self.emit(word(op::LoadG, register, 0, 0, global as u32))
            }
        };
    }

    fn statements(&mut self, at: At, least: u64, most: u64) {
        for _ in 0..self.rng.from_to(least, most) {
            self.statement(at);
        }
    }

    fn statement(&mut self, at: At) {
        match self.rng.below(100) {
            0..30 => self.arithmetic(),
            30..40 => self.doubles(),
            40..52 => self.memory(),
            52..56 => self.comparison(),
            56..62 if at.nested < 4 => self.branch(at),
            62..72 if at.nested < 4 && at.loops < 3 => self.repeat(at),
            72..79 => self.call(at),
            79..84 if at.nested < 4 => self.switch(at),
            84..90 => self.lookup(),
            90..93 => self.assertion(),
            93..96 => {
                let register = *self.rng.one_of(&NAMES);
                self.name(register);
            }
            96..98 => {
                self.emit(word(op::Nop, 0, 0, 0, 0));
            }
            _ => {
                let (dst, src) = (self.int(), self.any());
                self.emit(word(op::Mov, dst, src, 0, 0));
            }
        }
    }

    fn arithmetic(&mut self) {
        let (dst, lhs, rhs) = (self.int(), self.any(), self.any());
        if self.rng.one_in(2) {
            let opcode =
                *self.rng.one_of(&[op::IAdd, op::ISub, op::IMul, op::IAnd, op::ILt, op::IGt, op::IEq, op::IDiv, op::IMod]);
            // a divisor that is not zero, most times
            if matches!(opcode, op::IDiv | op::IMod) && !self.rng.one_in(12) {
                let divisor = self.rng.from_to(1, 40) as u32;
                let divisor = if self.rng.one_in(2) { divisor } else { divisor.wrapping_neg() };
                self.emit(word(op::LoadI, CONDITION, 0, 0, divisor));
                self.emit(word(opcode, dst, lhs, CONDITION, 0));
            } else {
                self.emit(word(opcode, dst, lhs, rhs, 0));
            }
            return;
        }
        let opcode =
            *self.rng.one_of(&[op::IAddI, op::ISubI, op::IMulI, op::IAndI, op::IEqI, op::IGtI, op::ILtI, op::IDivI, op::IModI]);
        let mut imm = values::imm(self.rng);
        if matches!(opcode, op::IDivI | op::IModI) && imm == 0 && !self.rng.one_in(4) {
            imm = 3;
        }
        self.emit(word(opcode, dst, lhs, 0, imm));
    }

    fn doubles(&mut self) {
        let dst = self.int();
        match self.rng.below(5) {
            0 | 1 => {
                let (to, mut l, mut r) = (*self.rng.one_of(&FINITE), *self.rng.one_of(&FINITE), *self.rng.one_of(&FINITE));
                // a special pattern only now and then: a NaN result sets the rest of the case aside
                if self.rng.one_in(8) {
                    let (register, value) = (*self.rng.one_of(&PATTERNS), values::special(self.rng));
                    self.load(register, value);
                    *if self.rng.one_in(2) { &mut l } else { &mut r } = register;
                }
                let opcode = *self.rng.one_of(&[op::DAdd, op::DSub, op::DMul, op::DDiv]);
                self.emit(word(opcode, to, l, r, 0));
            }
            2 => {
                let (l, r) = (*self.rng.one_of(&DOUBLES), *self.rng.one_of(&DOUBLES));
                let opcode = *self.rng.one_of(&[op::DLt, op::DGt]);
                self.emit(word(opcode, dst, l, r, 0));
            }
            3 => {
                let register = *self.rng.one_of(&PATTERNS);
                let value = values::double(self.rng);
                self.load(register, value);
            }
            _ => {
                let src = self.rng.below(16);
                let opcode = *self.rng.one_of(&[op::CastToInt, op::CastToDouble, op::CastToBool]);
                let to = if opcode == op::CastToDouble { *self.rng.one_of(&FINITE) } else { dst };
                self.emit(word(opcode, to, src, 0, 0));
            }
        }
    }

    fn memory(&mut self) {
        let i = self.rng.below(3) as usize;
        if self.rng.one_in(6) {
            self.alloc(i);
            return;
        }
        if self.rng.one_in(8) {
            return self.others_blocks();
        }
        let offset = 8 * self.rng.below(self.sizes[i] / 8);
        let (value, dst) = (self.any(), self.int());
        if self.rng.one_in(4) {
            // through an address inside the block
            let before = 8 * self.rng.below(offset / 8 + 1);
            self.emit(word(op::AddrOf, WITHIN, POINTERS[i], 0, before as u32));
            let rest = (offset - before) as u32;
            if self.rng.one_in(2) {
                self.emit(word(op::Load, dst, WITHIN, 0, rest));
            } else {
                self.emit(word(op::Store, WITHIN, value, 0, rest));
            }
        } else if self.rng.one_in(2) {
            self.emit(word(op::Load, dst, POINTERS[i], 0, offset as u32));
        } else {
            self.emit(word(op::Store, POINTERS[i], value, 0, offset as u32));
        }
    }

    /// Blocks that the program did not allocate, and a block's end.
    fn others_blocks(&mut self) {
        let (dst, value) = (self.int(), self.any());
        match (self.rng.below(3), self.names) {
            (0, [_, ..]) => {
                // a name's length and hash
                self.name(WITHIN);
                self.emit(word(op::Load, dst, WITHIN, 0, 0));
            }
            (1, _) => {
                let none = self.base + 16;
                self.load(WITHIN, none);
                let offset = 8 * self.rng.below(2) as u32;
                self.emit(word(op::Load, dst, WITHIN, 0, offset));
                self.emit(word(op::Store, WITHIN, value, 0, offset));
            }
            _ => {
                let i = self.rng.below(3) as usize;
                self.emit(word(op::AddrOf, dst, POINTERS[i], 0, self.sizes[i] as u32));
            }
        }
    }

    fn comparison(&mut self) {
        let dst = self.int();
        if self.rng.one_in(2) {
            let (l, r) = (self.any(), self.any());
            self.emit(word(op::BEq, dst, l, r, 0));
        } else {
            let (l, r) = (*self.rng.one_of(&NAMES), *self.rng.one_of(&NAMES));
            self.emit(word(op::SEq, dst, l, r, 0));
        }
    }

    fn branch(&mut self, at: At) {
        let inner = At { nested: at.nested + 1, ..at };
        let register = self.int();
        let around = match self.rng.below(4) {
            0 => {
                let opcode = *self.rng.one_of(&[op::JmpT, op::JmpF]);
                jump(opcode, register, 0)
            }
            1 => {
                let opcode = *self.rng.one_of(&[op::JmpEqI, op::JmpNeI]);
                jump(opcode, register, values::imm(self.rng))
            }
            _ => {
                let opcode = *self.rng.one_of(&[op::JmpSEq, op::JmpSNe]);
                let (l, r) = (*self.rng.one_of(&NAMES), *self.rng.one_of(&NAMES));
                jump(opcode, l, r as u32)
            }
        };
        let around = self.emit(around);
        self.statements(inner, 1, 3);
        if self.rng.one_in(2) {
            let end = self.emit(jump(op::Jmp, 0, 0));
            self.land(around);
            self.statements(inner, 1, 3);
            self.land(end);
        } else {
            self.land(around);
        }
    }

    fn repeat(&mut self, at: At) {
        // each level of each function has its own, so that no loop around this one loses its count
        let Some(&counter) = COUNTERS.get(at.function * 3 + at.loops) else {
            return self.arithmetic();
        };
        let times = self.rng.from_to(1, (60 / at.times).clamp(1, 12));
        self.emit(word(op::LoadI, counter, 0, 0, times as u32));
        let head = self.here() as u64;
        let inner = At { loops: at.loops + 1, nested: at.nested + 1, times: at.times * times, ..at };
        self.statements(inner, 1, 5);
        self.emit(word(op::ISubI, counter, counter, 0, 1));
        if self.rng.one_in(2) {
            self.emit(jump(op::JmpT, counter, 0) | head << 16);
        } else {
            self.emit(jump(op::JmpNeI, counter, 0) | head << 16);
        }
    }

    /// A function further on, or the one that calls itself.
    fn call(&mut self, at: At) {
        if at.times > 20 || self.functions == 0 {
            return self.arithmetic();
        }
        if at.function == 0 && self.rng.one_in(4) {
            // as deep as the frames go, at times one too deep
            let most = if self.rng.one_in(8) { self.frames + 1 } else { self.frames.saturating_sub(2) };
            let deep = self.rng.below(most.min(60) + 1) as u32;
            self.emit(word(op::LoadI, RECURSION, 0, 0, deep));
            self.uses.push((self.here(), self.functions));
            self.emit(word(op::Call, 0, 0, 0, 0));
        } else if at.function < self.functions {
            let callee = self.rng.from_to(at.function as u64 + 1, self.functions as u64) as usize;
            if callee < self.functions {
                self.uses.push((self.here(), callee));
                self.emit(word(op::Call, 0, 0, 0, 0));
            }
        }
    }

    /// Arms for some keys; between them and outside the table the default.
    fn switch(&mut self, at: At) {
        let inner = At { nested: at.nested + 1, ..at };
        let (kind, subject, first, entries) = self.keys();
        let table = self.image.switches.len();
        self.image.switches.push(Switch { first, targets: Vec::new() });
        self.emit(word(op::Switch, kind, subject, 0, table as u32));
        let mut ends = Vec::new();
        let mut arms = vec![self.here() as u64];
        for _ in 0..self.rng.from_to(1, 4) {
            self.statements(inner, 1, 2);
            ends.push(self.emit(jump(op::Jmp, 0, 0)));
            arms.push(self.here() as u64);
        }
        for end in ends {
            self.land(end);
        }
        let targets = entries.iter().map(|key| if *key { *self.rng.one_of(&arms) } else { arms[0] }).collect();
        self.image.switches[table].targets = targets;
    }

    fn lookup(&mut self) {
        let (kind, subject, first, entries) = self.keys();
        let table = self.image.lookups.len();
        let default = values::int(self.rng);
        let values = entries.iter().map(|key| if *key { values::int(self.rng) } else { default }).collect();
        self.image.lookups.push(Lookup { first, default, values });
        let dst = self.int();
        self.emit(word(op::Lookup, dst, subject, kind, table as u32));
    }

    /// A kind, a subject, a first key, and for each slot whether a key belongs to it.
    fn keys(&mut self) -> (u64, u64, u64, Vec<bool>) {
        let few = self.image.switches.len() < 200 && self.image.lookups.len() < 200;
        if self.rng.one_in(2) && !self.names.is_empty() && few {
            let a = self.rng.one_of(self.names).1;
            let b = self.rng.one_of(self.names).1;
            let (first, last) = (a.min(b), a.max(b));
            if (last - first) / 4 < 200 {
                let slots = (last - first) / 4 + self.rng.below(2);
                let key = |slot: u64| self.names.iter().any(|(_, v)| v.wrapping_sub(first) / 4 == slot);
                let entries = (0..slots).map(key).collect();
                let subject = if self.rng.one_in(8) { self.int() } else { *self.rng.one_of(&NAMES) };
                return (0, subject, first, entries);
            }
        }
        let (first, slots) = (self.rng.below(4).wrapping_sub(1), self.rng.below(7));
        let from = self.any();
        self.emit(word(op::IAndI, CONDITION, from, 0, 7));
        // strings lie 4 apart: a Str table over small numbers, too
        let kind = u64::from(!self.rng.one_in(6));
        (kind, CONDITION, first, (0..slots).map(|_| true).collect())
    }

    fn assertion(&mut self) {
        if self.rng.one_in(12) {
            let cond = self.int();
            self.emit(word(op::Assert, cond, 0, 0, 0));
        } else {
            let pointer = *self.rng.one_of(&POINTERS);
            self.emit(word(op::Assert, pointer, 0, 0, 0));
        }
    }

    fn functions(&mut self) {
        let mut starts = vec![0; self.functions + 1];
        for function in 1..self.functions {
            starts[function] = self.here();
            self.statements(At { function: function.min(2), loops: 0, nested: 1, times: 8 }, 1, 5);
            if function + 1 < self.functions && self.rng.one_in(4) {
                self.uses.push((self.here(), function + 1));
                self.emit(word(op::Tail, 0, 0, 0, 0));
            } else {
                self.emit(word(op::Ret, 0, 0, 0, 0));
            }
        }
        // the one that calls itself
        starts[self.functions] = self.here();
        let out = self.emit(jump(op::JmpEqI, RECURSION, 0));
        self.emit(word(op::ISubI, RECURSION, RECURSION, 0, 1));
        self.uses.push((self.here(), self.functions));
        self.emit(word(op::Call, 0, 0, 0, 0));
        self.arithmetic();
        self.land(out);
        self.emit(word(op::Ret, 0, 0, 0, 0));
        for (at, function) in std::mem::take(&mut self.uses) {
            self.image.code[at] |= (starts[function] as u64) << 32;
        }
    }
}

/// An image over names whose globals are given by place and value; those globals hold their values.
pub fn image(rng: &mut Rng, names: &[(usize, u64)], lent: Lent) -> Image {
    let mut globals = vec![0; names.len()];
    names.iter().for_each(|&(at, value)| globals[at] = value);
    let functions = rng.below(4) as usize;
    let mut b = Builder {
        rng,
        image: Image { globals, ..Image::default() },
        names,
        sizes: [0; 3],
        uses: Vec::new(),
        functions,
        frames: lent.frames,
        base: lent.base,
    };
    b.prologue();
    b.statements(At { function: 0, loops: 0, nested: 0, times: 1 }, 3, 14);
    // by the last Halt, or by returning from the root
    let end = if b.rng.one_in(3) { op::Ret } else { op::Halt };
    b.emit(word(end, 0, 0, 0, 0));
    if functions > 0 {
        b.functions();
    }
    b.emit(word(op::Halt, 0, 0, 0, 0));
    b.image
}
