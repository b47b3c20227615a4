//! The machine of document 01: every program, every call, every refusal. It is written from that document, and from op.rs, vm.rs and
//! string.rs for what it leaves to them (what each `Op` does, the hash, the probing); nothing is taken from the proved source.
//!
//! It is also what keeps the original inside its written conditions: it remembers which blocks were allocated and tells after
//! each call which condition, if any, the call left.
mod heap;
mod load;
mod names;
mod run;
pub mod value;
pub mod word;

use crate::anomaly::{OPERAND, SIZE, SMALL_STRING, STATE};
use crate::image::Image;
use crate::machine::{Answer, Buffer, Call, Field, InWords, Lent, Machine, PAGE, View, Whole, first};
use crate::words;
use std::borrow::Cow;

pub use names::{hash, small_hash, small_word};

pub const REGISTER_COUNT: usize = 32;
/// `reset` sets pc and frame 0 to it.
const UNSET: u64 = u64::MAX;

/// The state that goes from call to call.
#[derive(Clone, Debug, PartialEq)]
pub struct State {
    pub regs: [u64; REGISTER_COUNT],
    pub pc: u64,
    pub depth: u64,
    pub base: u64,
    /// bytes of pushed pages
    pub pushed: u64,
    /// the last page's place, from the base, and its length
    pub page: u64,
    pub len: u64,
    /// active slots, and the names in them
    pub active: u64,
    pub names: u64,
}

/// A block as it was allocated: where its payload lies and its size.
#[derive(Clone, Copy, Debug)]
pub struct Block {
    pub at: u64,
    pub size: u64,
    /// the payload of an interned string
    pub name: bool,
}

/// A condition of the original that a call did not keep.
#[derive(Clone, Copy, Debug, PartialEq, Eq, PartialOrd, Ord)]
pub enum Condition {
    /// 'every `Load`, `Store` and `AddrOf` stays in the block its base was allocated as'
    Block,
    /// 'string payloads are written only from strings'
    Payload,
    /// 'no NaN result of those four'
    Nan,
}

#[derive(Clone, Debug)]
pub struct Model {
    pub state: State,
    pub frames: Vec<u64>,
    pub heap: Vec<u8>,
    pub slots: Vec<u64>,
    pub spare: Vec<u64>,
    /// Kept for the original's sake: no answer depends on what follows.
    pub blocks: Vec<Block>,
    pub pages: Vec<(u64, u64)>,
    pub broken: Option<Condition>,
}

fn frames_ok(frames: u64) -> bool {
    (1..=16_384).contains(&frames)
}

fn heap_ok(base: u64, heap: u64) -> bool {
    let pages = heap / PAGE;
    heap % PAGE == 0
        && (1..=256).contains(&pages)
        && base % PAGE == 0
        && base >= PAGE
        && u128::from(base) + u128::from(heap) <= 1 << 48
}

fn slots_ok(slots: u64, spare: u64) -> bool {
    slots.is_power_of_two() && (64..=4096).contains(&slots) && spare == slots
}

impl Model {
    fn frames_lent(&self) -> bool {
        frames_ok(self.frames.len() as u64)
    }

    fn heap_lent(&self) -> bool {
        heap_ok(self.state.base, self.heap.len() as u64)
    }

    fn slots_lent(&self) -> bool {
        slots_ok(self.slots.len() as u64, self.spare.len() as u64)
    }

    /// 9, of frames: 'depth above the frames; for a run of non-empty code, a frame in use other than frame 0 whose return isn't
    /// below the last word's place'.
    fn frames_belong(&self, words: u64) -> bool {
        let depth = self.state.depth;
        depth <= self.frames.len() as u64 && (words == 0 || (1..depth).all(|i| self.frames[i as usize] < words - 1))
    }

    /// 9, of pages.
    fn pages_belong(&self) -> bool {
        let s = &self.state;
        s.pushed != 0
            && s.pushed % PAGE == 0
            && s.pushed <= self.heap.len() as u64
            && s.page % PAGE == 0
            && s.page < s.pushed
            && s.len <= s.pushed - s.page
    }

    /// 9, of names.
    fn names_belong(&self) -> bool {
        let s = &self.state;
        let active = s.active;
        if active != 0 && !(active.is_power_of_two() && active >= 64 && active <= self.slots.len() as u64) {
            return false;
        }
        let filled = self.slots[..active as usize].iter().filter(|&&v| v != 0);
        s.names == filled.clone().count() as u64 && s.names * 2 <= active && filled.clone().all(|&v| self.reaches(v, 8))
    }

    /// Whether so many bytes from an address are in pushed pages.
    fn reaches(&self, address: u64, bytes: u64) -> bool {
        let s = &self.state;
        address >= s.base && u128::from(address) + u128::from(bytes) <= u128::from(s.base) + u128::from(s.pushed)
    }

    fn run_call(&mut self, image: &Image, budget: u64) -> Answer {
        if !self.frames_lent() || !self.heap_lent() {
            return Answer::Refused(SIZE);
        }
        if let Some(number) = load::refusal(image) {
            return Answer::Refused(number);
        }
        if !self.frames_belong(image.code.len() as u64) || !self.pages_belong() {
            return Answer::Refused(STATE);
        }
        self.run(image, budget)
    }

    fn reset(&mut self) -> Answer {
        if !self.frames_lent() {
            return Answer::Refused(SIZE);
        }
        self.frames[0] = UNSET;
        self.state.pc = UNSET;
        self.state.depth = 1;
        Answer::Done
    }

    fn set_register(&mut self, register: u64, value: u64) -> Answer {
        if register >= REGISTER_COUNT as u64 {
            return Answer::Refused(OPERAND);
        }
        self.state.regs[register as usize] = value;
        Answer::Done
    }

    fn allocate(&mut self, kind: u64, align: u64, size: u64) -> Answer {
        if !self.heap_lent() {
            return Answer::Refused(SIZE);
        }
        if kind > 3 || ![1, 2, 4, 8].contains(&align) {
            return Answer::Refused(OPERAND);
        }
        if !self.pages_belong() {
            return Answer::Refused(STATE);
        }
        answer(self.alloc(kind as u8, size, false))
    }

    fn new_option(&mut self, value: Option<u64>) -> Answer {
        if !self.heap_lent() {
            return Answer::Refused(SIZE);
        }
        if !self.pages_belong() {
            return Answer::Refused(STATE);
        }
        match value {
            // 'of none returns `none`', which 'is B+16'
            None => Answer::Value(self.state.base + 16),
            Some(value) => answer(self.option_box(1, value)),
        }
    }

    fn make_up(&mut self, field: Field, value: u64) {
        let s = &mut self.state;
        let place = match field {
            Field::Depth => &mut s.depth,
            Field::Base => &mut s.base,
            Field::Pushed => &mut s.pushed,
            Field::Page => &mut s.page,
            Field::Len => &mut s.len,
            Field::Active => &mut s.active,
            Field::Names => &mut s.names,
            Field::Frame(i) if i < self.frames.len() => &mut self.frames[i],
            Field::Slot(i) if i < self.slots.len() => &mut self.slots[i],
            // fewer are lent by now
            Field::Frame(_) | Field::Slot(_) => return,
            Field::Lent(buffer) => return self.lend(buffer, value as usize),
        };
        *place = value;
    }

    fn lend(&mut self, buffer: Buffer, len: usize) {
        match buffer {
            Buffer::Frames => self.frames.resize(len, 0),
            Buffer::Heap => self.heap.resize(len, 0),
            Buffer::Slots => self.slots.resize(len, 0),
            Buffer::Spare => self.spare.resize(len, 0),
        }
    }

    /// 10 and 9, for all that an interning is lent.
    fn interning_refusal(&self) -> Option<u8> {
        if !self.heap_lent() || !self.slots_lent() {
            return Some(SIZE);
        }
        (!self.pages_belong() || !self.names_belong()).then_some(STATE)
    }

    fn intern(&mut self, bytes: &[u8]) -> Answer {
        if let Some(number) = self.interning_refusal() {
            return Answer::Refused(number);
        }
        answer(self.name(bytes))
    }

    fn intern_small(&mut self, len: u64, word: u64) -> Answer {
        if let Some(number) = self.interning_refusal() {
            return Answer::Refused(number);
        }
        if len > 8 || (len < 8 && word >> (8 * len) != 0) {
            return Answer::Refused(SMALL_STRING);
        }
        answer(self.name(&word.to_le_bytes()[..len as usize]))
    }
}

fn answer(result: Result<u64, u8>) -> Answer {
    match result {
        Ok(value) => Answer::Value(value),
        Err(number) => Answer::Refused(number),
    }
}

impl Machine for Model {
    fn start(lent: Lent, image: &Image) -> Result<Self, u8> {
        if !frames_ok(lent.frames) || !heap_ok(lent.base, lent.heap) || !slots_ok(lent.slots, lent.spare) {
            return Err(SIZE);
        }
        if let Some(number) = load::refusal(image) {
            return Err(number);
        }
        let words = |n: u64| vec![u64::from_le_bytes([lent.fill; 8]); n as usize];
        let mut model = Self {
            state: State {
                regs: [0; REGISTER_COUNT],
                pc: 0,
                depth: 1,
                base: lent.base,
                pushed: 0,
                page: 0,
                len: 0,
                active: 0,
                names: 0,
            },
            frames: words(lent.frames),
            heap: vec![lent.fill; lent.heap as usize],
            slots: words(lent.slots),
            spare: words(lent.spare),
            blocks: Vec::new(),
            pages: Vec::new(),
            broken: None,
        };
        // 'Start writes frame 0 as `reset` does'
        model.frames[0] = UNSET;
        model.push_page(PAGE);
        // '`Vm::new_in` boxes [0, 0]'
        model.option_box(0, 0)?;
        Ok(model)
    }

    fn call(&mut self, images: &[Image], call: &Call) -> Answer {
        self.broken = None;
        match *call {
            Call::Run { image, budget } => self.run_call(&images[image], budget),
            Call::Reset => self.reset(),
            Call::SetPc(pc) => {
                self.state.pc = pc;
                Answer::Done
            }
            Call::SetRegister { register, value } => self.set_register(register, value),
            Call::Allocate { kind, align, size } => self.allocate(kind, align, size),
            Call::NewOption(value) => self.new_option(value),
            Call::Intern(ref bytes) => self.intern(bytes),
            Call::InternSmall { len, word } => self.intern_small(len, word),
            Call::MakeUp { field, value } => {
                self.make_up(field, value);
                Answer::Done
            }
        }
    }

    fn view(&self) -> View<'_> {
        let s = &self.state;
        View {
            regs: Cow::Borrowed(&s.regs),
            pc: s.pc,
            depth: s.depth,
            frames: Cow::Borrowed(first(&self.frames, s.depth)),
            heap: Cow::Borrowed(first(&self.heap, s.pushed)),
            page: s.page,
            len: s.len,
            slots: Cow::Borrowed(first(&self.slots, s.active)),
            names: s.names,
            pages: Some(Cow::Borrowed(&self.pages)),
            whole: Some(Whole { frames: &self.frames, heap: &self.heap, slots: &self.slots, spare: &self.spare }),
        }
    }
}

/// Words that are no image's are a size outside the limits, and 10 is the first number of all.
impl InWords for Model {
    fn start_on(lent: Lent, words: &[u64]) -> Result<Self, u8> {
        Self::start(lent, &words::read(words).ok_or(SIZE)?)
    }

    fn run_on(&mut self, words: &[u64], budget: u64) -> Answer {
        match words::read(words) {
            Some(image) => self.call(&[image], &Call::Run { image: 0, budget }),
            None => Answer::Refused(SIZE),
        }
    }
}
