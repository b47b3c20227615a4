//! What every implementation of the machine offers, and all that document 01 compares.
use crate::image::Image;
use std::borrow::Cow;

pub const PAGE: u64 = 4096;

/// What is lent at a start: the base, the sizes, and what fills the buffers before it.
#[derive(Clone, Copy, Debug, PartialEq)]
pub struct Lent {
    pub base: u64,
    /// in bytes
    pub heap: u64,
    pub frames: u64,
    pub slots: u64,
    pub spare: u64,
    pub fill: u8,
}

#[derive(Clone, Debug, PartialEq)]
pub enum Call {
    /// an index into the images of the case
    Run {
        image: usize,
        budget: u64,
    },
    Reset,
    SetPc(u64),
    SetRegister {
        register: u64,
        value: u64,
    },
    Allocate {
        kind: u64,
        align: u64,
        size: u64,
    },
    NewOption(Option<u64>),
    Intern(Vec<u8>),
    InternSmall {
        len: u64,
        word: u64,
    },
    /// No call of the machine: the host hands back another state or buffer than it got. What 9 and 10 are there for.
    MakeUp {
        field: Field,
        value: u64,
    },
}

/// What a host can hand back otherwise.
#[derive(Clone, Copy, Debug, PartialEq)]
pub enum Field {
    Depth,
    Base,
    Pushed,
    /// the last page's place
    Page,
    Len,
    /// active slots
    Active,
    Names,
    Frame(usize),
    Slot(usize),
    /// A buffer as long as this: cut off, or longer by zeros.
    Lent(Buffer),
}

#[derive(Clone, Copy, Debug, PartialEq)]
pub enum Buffer {
    Frames,
    Heap,
    Slots,
    Spare,
}

#[derive(Clone, Copy, Debug, PartialEq, Eq)]
pub enum Answer {
    Done,
    Value(u64),
    /// The original counts no steps.
    End {
        number: u8,
        pc: u64,
        steps: Option<u64>,
    },
    Refused(u8),
}

impl Answer {
    pub fn agrees(self, other: Self) -> bool {
        match (self, other) {
            (Self::End { number: m, pc: p, steps: s }, Self::End { number: n, pc: q, steps: t }) => {
                (m, p) == (n, q) && (s.is_none() || t.is_none() || s == t)
            }
            _ => self == other,
        }
    }
}

/// All that is compared after a call.
pub struct View<'a> {
    pub regs: Cow<'a, [u64]>,
    pub pc: u64,
    pub depth: u64,
    /// those in use
    pub frames: Cow<'a, [u64]>,
    /// the bytes of the pushed pages
    pub heap: Cow<'a, [u8]>,
    /// the last page's place, from the base, and its length
    pub page: u64,
    pub len: u64,
    /// the active ones
    pub slots: Cow<'a, [u64]>,
    pub names: u64,
    /// Each page's place and size, where the implementation knows them.
    pub pages: Option<Cow<'a, [(u64, u64)]>>,
    /// Every lent buffer whole, where the implementation works on lent buffers.
    pub whole: Option<Whole<'a>>,
}

#[derive(PartialEq, Debug)]
pub struct Whole<'a> {
    pub frames: &'a [u64],
    pub heap: &'a [u8],
    pub slots: &'a [u64],
    pub spare: &'a [u64],
}

/// The first n, or all where a made-up state says more.
pub fn first<T>(all: &[T], n: u64) -> &[T] {
    &all[..(all.len() as u64).min(n) as usize]
}

/// One machine: `Err` is the number by which a start is refused.
pub trait Machine: Sized {
    fn start(lent: Lent, image: &Image) -> Result<Self, u8>;
    fn call(&mut self, images: &[Image], call: &Call) -> Answer;
    fn view(&self) -> View<'_>;
}

/// A machine that is lent its images in words, and so any words.
pub trait InWords: Machine {
    fn start_on(lent: Lent, words: &[u64]) -> Result<Self, u8>;
    fn run_on(&mut self, words: &[u64], budget: u64) -> Answer;
}
