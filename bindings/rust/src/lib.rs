//! Girzhanok, the rating machine: a safe interface to its proved library.
//!
//! A machine is a [`State`] and four buffers: frames, heap, slots and spare. The caller keeps the buffers and lends them to each call,
//! whole and as the last call left them. Whatever is lent, a call returns: it is done, it ends a run, or it is refused by a number, and
//! then nothing is changed.
//!
//! A terminal starts a machine once and interns the names that its rules know. Then, for each sale: [`State::reset`], since a run that
//! stopped inside a function has left its depth; [`State::set_pc`]; [`State::set_register`]; [`State::run`].
//!
//! ```
//! use girzhanok::{End, Image, Sections, State};
//!
//! // IDivI r1, r0, 100; Halt: a point for each whole unit
//! let words = Sections { code: &[0x0000_0064_0000_0107, 59], ..Sections::EMPTY }.join();
//! let image = Image { words: &words };
//! let (mut frames, mut heap) = ([0; 4], vec![0; 4096]);
//! let (slots, spare) = ([0; 64], [0; 64]);
//!
//! let mut state = State::start(65536, &image, &mut frames, &mut heap, &slots, &spare)?;
//! for (cents, points) in [(1250, 12), (99, 0)] {
//!     state.reset(&mut frames)?;
//!     state.set_pc(0);
//!     state.set_register(0, cents)?;
//!     let ran = state.run(10, &image, &mut frames, &mut heap)?;
//!     assert_eq!((ran.end, ran.pc, ran.steps), (End::Halt, 1, 2));
//!     assert_eq!(state.registers()[1], points);
//! }
//! # Ok::<(), girzhanok::Refusal>(())
//! ```
//!
//! Nothing is ever freed: blocks, options and names stay until a new start empties the heap. What a call costs: every run first tests the
//! whole image and the frames in use, however short it is, and every interning all active slots, also of a name that is known.
//!
//! Doubles are what IEEE 754 says as long as the thread's floating-point mode is the default: to nearest, subnormals kept.
//!
//! Memory safety rests on the borrow rules, which keep the lent buffers apart, and on the library's proof, which keeps every access
//! inside them.
//!
//! Names, numbers and layouts are carried over from purple-garden, under the MIT licence: `NOTICE`, at the repository's root, which goes
//! where this crate goes.
#![warn(missing_docs)]

mod ffi;
mod image;
mod limits;
mod numbers;

pub use image::{Image, Lookup, Sections, Switch};
pub use limits::*;
pub use numbers::{End, Refusal};

/// What a block is allocated as.
#[derive(Clone, Copy, Debug, PartialEq, Eq)]
#[repr(u64)]
pub enum Kind {
    /// A record.
    Record = 0,
    /// An array.
    Array = 1,
    /// An option.
    Option = 2,
    /// A string.
    String = 3,
}

/// How a run ended.
#[derive(Clone, Copy, Debug, PartialEq, Eq)]
pub struct Ran {
    /// Why it ended.
    pub end: End,
    /// The place of the instruction that ended it, or of the next where the budget is completed; where there was nothing to run, the
    /// stored pc.
    pub pc: usize,
    /// Instructions completed.
    pub steps: u32,
}

/// What a machine keeps between calls, beside its buffers.
#[derive(Clone, Debug, PartialEq, Eq)]
pub struct State {
    words: [u64; STATE_WORDS],
}

/// A call's number, where it has no other end than done.
fn done(number: u64) -> Result<(), Refusal> {
    if number == End::Halt.number() {
        Ok(())
    } else {
        Err(Refusal::from_number(number))
    }
}

impl State {
    /// A machine with an empty heap at `base`: registers 0, pc 0, depth 1, no name. Frame 0 and page 0 of the heap are written; of `slots` and
    /// `spare` the sizes are read. No buffer need be cleared before.
    ///
    /// Refused by `Size`, `NoHalt`, `TableTarget`, then word by word `Opcode`, `Operand`, `Target`, `Index`.
    pub fn start(base: u64, image: &Image, frames: &mut [u64], heap: &mut [u8], slots: &[u64], spare: &[u64]) -> Result<State, Refusal> {
        let mut state = State { words: [0; STATE_WORDS] };
        // SAFETY: each pointer comes with its slice's length, and the borrows keep the slices that are written apart from all others.
        done(unsafe {
            ffi::girzhanok_start(
                state.words.as_mut_ptr(),
                STATE_WORDS,
                base,
                image.words.as_ptr(),
                image.words.len(),
                frames.as_mut_ptr(),
                frames.len(),
                heap.as_mut_ptr(),
                heap.len(),
                slots.as_ptr(),
                slots.len(),
                spare.as_ptr(),
                spare.len(),
            )
        })?;
        Ok(state)
    }

    /// Runs `image`, which need not be that of the start, from the stored pc on, `budget` instructions at most.
    ///
    /// After [`End::Halt`] the stored pc is the Halt's, so another run does that Halt again; after [`End::Budget`] it is the next instruction's;
    /// after any other end it is the one from before the run.
    ///
    /// Refused as a start is, then by `State`.
    pub fn run(&mut self, budget: u32, image: &Image, frames: &mut [u64], heap: &mut [u8]) -> Result<Ran, Refusal> {
        let (mut pc, mut steps) = (0, 0);
        // SAFETY: as for `start`.
        let number = unsafe {
            ffi::girzhanok_run(
                self.words.as_mut_ptr(),
                STATE_WORDS,
                budget,
                &mut pc,
                &mut steps,
                image.words.as_ptr(),
                image.words.len(),
                frames.as_mut_ptr(),
                frames.len(),
                heap.as_mut_ptr(),
                heap.len(),
            )
        };
        match End::from_number(number) {
            Some(end) => Ok(Ran { end, pc, steps }),
            None => Err(Refusal::from_number(number)),
        }
    }

    /// Sets pc and frame 0 to 2^64 − 1 and the depth to 1; a run from there has nothing to run: set the pc first. Registers, heap and names
    /// stay.
    ///
    /// Refused by `Size`.
    pub fn reset(&mut self, frames: &mut [u64]) -> Result<(), Refusal> {
        // SAFETY: as for `start`.
        done(unsafe { ffi::girzhanok_reset(self.words.as_mut_ptr(), STATE_WORDS, frames.as_mut_ptr(), frames.len()) })
    }

    /// Sets the pc that the next run begins at. It is never refused: a run from past the code has nothing to run.
    pub fn set_pc(&mut self, pc: usize) {
        // SAFETY: as for `start`. A state of 40 words is never refused.
        unsafe { ffi::girzhanok_set_pc(self.words.as_mut_ptr(), STATE_WORDS, pc) };
    }

    /// Sets a register.
    ///
    /// Refused by `Operand`, where its number is above 31.
    pub fn set_register(&mut self, number: usize, value: u64) -> Result<(), Refusal> {
        // SAFETY: as for `start`.
        done(unsafe { ffi::girzhanok_set_register(self.words.as_mut_ptr(), STATE_WORDS, number, value) })
    }

    /// The address of a new block of `size` bytes; `align` is 1, 2, 4 or 8, and every block lies at a multiple of 8. Its bytes are not
    /// cleared, but a page is zero when it is pushed.
    ///
    /// Refused by `Size`, `Operand`, `State`, `Memory`.
    pub fn allocate(&mut self, kind: Kind, align: usize, size: u64, heap: &mut [u8]) -> Result<u64, Refusal> {
        self.allocate_as(kind as u64, align, size, heap)
    }

    /// The same of a kind by its number: `Operand` above 3 too.
    pub fn allocate_as(&mut self, kind: u64, align: usize, size: u64, heap: &mut [u8]) -> Result<u64, Refusal> {
        let mut value = 0;
        // SAFETY: as for `start`.
        done(unsafe {
            ffi::girzhanok_allocate(self.words.as_mut_ptr(), STATE_WORDS, kind, align, size, heap.as_mut_ptr(), heap.len(), &mut value)
        })?;
        Ok(value)
    }

    /// The address of an option: of a payload a new block that holds 1 and the payload, 8 bytes each; of none the one that the start made,
    /// two zeros at base + 16.
    ///
    /// Refused by `Size`, `State`, `Memory`.
    pub fn option(&mut self, payload: Option<u64>, heap: &mut [u8]) -> Result<u64, Refusal> {
        let mut value = 0;
        // SAFETY: as for `start`.
        done(unsafe {
            ffi::girzhanok_option(
                self.words.as_mut_ptr(),
                STATE_WORDS,
                payload.is_some(),
                payload.unwrap_or(0),
                heap.as_mut_ptr(),
                heap.len(),
                &mut value,
            )
        })?;
        Ok(value)
    }

    /// The address of a name: that of its first interning, unless a program has since written over its block; then it is stored anew. The
    /// block holds the length, 4 bytes, the hash, 4 bytes, and the name's bytes. A known name is answered even where slots or heap are full.
    ///
    /// Refused by `Size`, `State`, `TableFull`, `Memory`.
    pub fn intern(&mut self, name: &[u8], heap: &mut [u8], slots: &mut [u64], spare: &mut [u64]) -> Result<u64, Refusal> {
        let mut value = 0;
        // SAFETY: as for `start`.
        done(unsafe {
            ffi::girzhanok_intern(
                self.words.as_mut_ptr(),
                STATE_WORDS,
                name.as_ptr(),
                name.len(),
                heap.as_mut_ptr(),
                heap.len(),
                slots.as_mut_ptr(),
                slots.len(),
                spare.as_mut_ptr(),
                spare.len(),
                &mut value,
            )
        })?;
        Ok(value)
    }

    /// The same of the name in the `len` lowest bytes of `word`, the first one lowest.
    ///
    /// Refused by `Size`, `State`, `SmallString`, `TableFull`, `Memory`.
    pub fn intern_small(&mut self, len: usize, word: u64, heap: &mut [u8], slots: &mut [u64], spare: &mut [u64]) -> Result<u64, Refusal> {
        let mut value = 0;
        // SAFETY: as for `start`.
        done(unsafe {
            ffi::girzhanok_intern_small(
                self.words.as_mut_ptr(),
                STATE_WORDS,
                len,
                word,
                heap.as_mut_ptr(),
                heap.len(),
                slots.as_mut_ptr(),
                slots.len(),
                spare.as_mut_ptr(),
                spare.len(),
                &mut value,
            )
        })?;
        Ok(value)
    }

    /// The registers.
    pub fn registers(&self) -> &[u64] {
        &self.words[..REGISTERS]
    }

    /// The stored pc. The library is built for processors whose `usize` is 64 bits wide, so nothing is lost.
    pub fn pc(&self) -> usize {
        self.words[WORD_PC] as usize
    }

    /// How many frames are in use.
    pub fn depth(&self) -> usize {
        self.words[WORD_DEPTH] as usize
    }

    /// How many names are interned.
    pub fn names(&self) -> usize {
        self.words[WORD_NAMES] as usize
    }

    /// The state as the library has it, to keep it elsewhere.
    pub fn words(&self) -> &[u64; STATE_WORDS] {
        &self.words
    }

    /// A state that was kept elsewhere. Any words are safe: calls refuse what cannot belong to the buffers that they are lent.
    pub fn from_words(words: [u64; STATE_WORDS]) -> State {
        State { words }
    }
}
