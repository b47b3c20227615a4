//! The proved machine, by its library and the bindings to it. It is asked every call, refused ones and made-up states too, and its lent
//! buffers are compared whole.
use girzhanok::{
    Refusal, State, STATE_WORDS, WORD_ACTIVE, WORD_BASE, WORD_DEPTH, WORD_LEN, WORD_NAMES, WORD_PAGE, WORD_PC, WORD_PUSHED,
};
use oracle::compare::Compared;
use oracle::image::Image;
use oracle::machine::{first, Answer, Buffer, Call, Field, InWords, Lent, Machine, View, Whole};
use oracle::words;
use std::borrow::Cow;

pub struct Proved {
    state: State,
    frames: Vec<u64>,
    heap: Vec<u8>,
    slots: Vec<u64>,
    spare: Vec<u64>,
}

/// A number of the table.
fn byte(number: u64) -> u8 {
    u8::try_from(number).expect("a number of the table")
}

fn refused(why: Refusal) -> Answer {
    Answer::Refused(byte(why.number()))
}

fn done(result: Result<(), Refusal>) -> Answer {
    result.map_or_else(refused, |()| Answer::Done)
}

fn value(result: Result<u64, Refusal>) -> Answer {
    result.map_or_else(refused, Answer::Value)
}

impl Proved {
    fn make_up(&mut self, field: Field, value: u64) {
        let word = match field {
            Field::Depth => WORD_DEPTH,
            Field::Base => WORD_BASE,
            Field::Pushed => WORD_PUSHED,
            Field::Page => WORD_PAGE,
            Field::Len => WORD_LEN,
            Field::Active => WORD_ACTIVE,
            Field::Names => WORD_NAMES,
            // fewer may be lent by now
            Field::Frame(i) => return self.frames.get_mut(i).into_iter().for_each(|frame| *frame = value),
            Field::Slot(i) => return self.slots.get_mut(i).into_iter().for_each(|slot| *slot = value),
            Field::Lent(buffer) => return self.lend(buffer, value as usize),
        };
        let mut words: [u64; STATE_WORDS] = *self.state.words();
        words[word] = value;
        self.state = State::from_words(words);
    }

    fn lend(&mut self, buffer: Buffer, len: usize) {
        match buffer {
            Buffer::Frames => self.frames.resize(len, 0),
            Buffer::Heap => self.heap.resize(len, 0),
            Buffer::Slots => self.slots.resize(len, 0),
            Buffer::Spare => self.spare.resize(len, 0),
        }
    }
}

impl InWords for Proved {
    fn start_on(lent: Lent, words: &[u64]) -> Result<Self, u8> {
        let fill = |n: u64| vec![u64::from_le_bytes([lent.fill; 8]); n as usize];
        let (mut frames, mut heap) = (fill(lent.frames), vec![lent.fill; lent.heap as usize]);
        let (slots, spare) = (fill(lent.slots), fill(lent.spare));
        match State::start(lent.base, &girzhanok::Image { words }, &mut frames, &mut heap, &slots, &spare) {
            Ok(state) => Ok(Self { state, frames, heap, slots, spare }),
            Err(why) => {
                let kept = frames == fill(lent.frames) && heap.iter().all(|&b| b == lent.fill);
                assert!(kept, "a refused start has written to the frames or the heap");
                Err(byte(why.number()))
            }
        }
    }

    fn run_on(&mut self, words: &[u64], budget: u64) -> Answer {
        match self.state.run(budget as u32, &girzhanok::Image { words }, &mut self.frames, &mut self.heap) {
            Ok(ran) => Answer::End { number: byte(ran.end.number()), pc: ran.pc as u64, steps: Some(ran.steps.into()) },
            Err(why) => refused(why),
        }
    }
}

impl Machine for Proved {
    fn start(lent: Lent, image: &Image) -> Result<Self, u8> {
        Self::start_on(lent, &words::write(image))
    }

    fn call(&mut self, images: &[Image], call: &Call) -> Answer {
        let Self { state, frames, heap, slots, spare } = self;
        match *call {
            Call::Run { image, budget } => self.run_on(&words::write(&images[image]), budget),
            Call::Reset => done(state.reset(frames)),
            Call::SetPc(pc) => {
                state.set_pc(pc as usize);
                Answer::Done
            }
            Call::SetRegister { register, value } => done(state.set_register(register as usize, value)),
            Call::Allocate { kind, align, size } => value(state.allocate_as(kind, align as usize, size, heap)),
            Call::NewOption(payload) => value(state.option(payload, heap)),
            Call::Intern(ref bytes) => value(state.intern(bytes, heap, slots, spare)),
            Call::InternSmall { len, word } => value(state.intern_small(len as usize, word, heap, slots, spare)),
            Call::MakeUp { field, value } => {
                self.make_up(field, value);
                Answer::Done
            }
        }
    }

    fn view(&self) -> View<'_> {
        let w = self.state.words();
        View {
            regs: Cow::Borrowed(self.state.registers()),
            pc: w[WORD_PC],
            depth: w[WORD_DEPTH],
            frames: Cow::Borrowed(first(&self.frames, w[WORD_DEPTH])),
            heap: Cow::Borrowed(first(&self.heap, w[WORD_PUSHED])),
            page: w[WORD_PAGE],
            len: w[WORD_LEN],
            slots: Cow::Borrowed(first(&self.slots, w[WORD_ACTIVE])),
            names: w[WORD_NAMES],
            pages: None,
            whole: Some(Whole { frames: &self.frames, heap: &self.heap, slots: &self.slots, spare: &self.spare }),
        }
    }
}

impl Compared for Proved {
    const NAME: &'static str = "the proved machine";
}
