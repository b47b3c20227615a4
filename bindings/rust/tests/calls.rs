//! Every call of the library through the safe interface, and refusals that change nothing.
use girzhanok::{End, Image, Kind, Lookup, Ran, Refusal, Sections, State, Switch, IMAGE_MAX, PAGE_SIZE, STATE_WORDS, WORD_DEPTH};

const BASE: u64 = 65536;

/// The buffers of a small terminal.
#[derive(Clone, Debug, PartialEq)]
struct Lent {
    frames: Vec<u64>,
    heap: Vec<u8>,
    slots: Vec<u64>,
    spare: Vec<u64>,
}

impl Lent {
    fn new(frames: usize, pages: usize, slots: usize) -> Lent {
        Lent { frames: vec![0; frames], heap: vec![0; pages * PAGE_SIZE], slots: vec![0; slots], spare: vec![0; slots] }
    }

    fn start(&mut self, image: &Image) -> Result<State, Refusal> {
        State::start(BASE, image, &mut self.frames, &mut self.heap, &self.slots, &self.spare)
    }

    fn intern(&mut self, state: &mut State, name: &[u8]) -> Result<u64, Refusal> {
        state.intern(name, &mut self.heap, &mut self.slots, &mut self.spare)
    }
}

fn small() -> Lent {
    Lent::new(4, 2, 64)
}

/// LoadI r0, 7; IAddI r1, r0, -1; Halt
const COUNT: Image = Image { words: &[12, 12, 12, 12, 12, 12, 12, 12, 12, 0x0000_0007_0000_001b, 0xffff_ffff_0000_0101, 59] };

/// The words of an image that is code alone.
fn code(words: &[u64]) -> Vec<u64> {
    Sections { code: words, ..Sections::EMPTY }.join()
}

#[test]
fn the_worked_image() {
    let mut lent = Lent::new(4, 1, 64);
    let mut state = lent.start(&COUNT).unwrap();
    assert_eq!((state.pc(), state.depth(), state.names()), (0, 1, 0));
    let ran = state.run(10, &COUNT, &mut lent.frames, &mut lent.heap);
    assert_eq!(ran, Ok(Ran { end: End::Halt, pc: 2, steps: 3 }));
    assert_eq!(state.registers()[..3], [7, 6, 0]);
    assert_eq!((state.pc(), state.depth()), (2, 1));
}

#[test]
fn a_budget_is_completed_and_gone_on_with() {
    let mut lent = small();
    let mut state = lent.start(&COUNT).unwrap();
    let ran = state.run(2, &COUNT, &mut lent.frames, &mut lent.heap);
    assert_eq!(ran, Ok(Ran { end: End::Budget, pc: 2, steps: 2 }));
    let ran = state.run(2, &COUNT, &mut lent.frames, &mut lent.heap);
    assert_eq!(ran, Ok(Ran { end: End::Halt, pc: 2, steps: 1 }));
}

#[test]
fn a_stopped_run_keeps_the_pc_from_before_it() {
    let mut lent = small();
    // LoadI r0, 7; IDiv r1, r0, r2; Halt
    let words = code(&[0x0000_0007_0000_001b, 0x0000_0000_0200_0106, 59]);
    let image = Image { words: &words };
    let mut state = lent.start(&image).unwrap();
    let ran = state.run(10, &image, &mut lent.frames, &mut lent.heap);
    assert_eq!(ran, Ok(Ran { end: End::DivisionByZero, pc: 1, steps: 1 }));
    assert_eq!((state.pc(), state.registers()[0]), (0, 7));
}

#[test]
fn sections_are_joined() {
    let words = Sections {
        code: &[0x3c, 59],
        globals: &[7],
        switches: &[Switch { first: 1, targets: &[0, 1] }, Switch { first: 5, targets: &[] }, Switch { first: 6, targets: &[1] }],
        lookups: &[Lookup { first: 2, default: 9, values: &[3] }, Lookup { first: 4, default: 8, values: &[] }],
    }
    .join();
    assert_eq!(words[..9], [11, 12, 15, 18, 21, 23, 25, 26, 28]);
    assert_eq!(words[9..12], [0x3c, 59, 7], "code and globals");
    assert_eq!(words[12..21], [1, 5, 6, 2, 2, 3, 0, 1, 1], "switches");
    assert_eq!(words[21..], [2, 4, 1, 1, 3, 9, 8], "lookups");
    assert_eq!(Sections::EMPTY.join(), Image::EMPTY.words);
}

#[test]
fn a_global_has_a_place() {
    let place = |words: &[u64], number| Image { words }.global(number);
    let words = Sections { code: &[59], globals: &[4, 5], ..Sections::EMPTY }.join();
    assert_eq!([0, 1, 2, usize::MAX].map(|number| place(&words, number)), [Some(10), Some(11), None, None]);
    // ends that lead out of the words, into the ends, or nowhere
    for (words, number) in [(&[0, 5][..], 0), (&[0, 5], 1), (&[0, 20, 0, 0, 0, 0, 0, 0, 0, 7], 8), (&[u64::MAX, u64::MAX], 0), (&[9], 0)] {
        assert_eq!(place(words, number), None, "{words:?}");
    }
    assert_eq!(place(&[0, 20, 0, 0, 0, 0, 0, 0, 0, 7], 9), Some(9));
}

/// The rule of examples/points_by_tier.asm: names are globals 0 to 2, the sale's tier is global 3.
#[test]
fn a_rule_from_a_file() {
    let file = include_bytes!("../../../examples/points_by_tier.words");
    let mut words: Vec<u64> = file.chunks_exact(8).map(|bytes| u64::from_le_bytes(bytes.try_into().unwrap())).collect();
    let mut lent = Lent::new(4, 1, 64);
    let mut state = lent.start(&Image { words: &words }).unwrap();
    for (number, name) in ["bronze", "silver", "gold"].into_iter().enumerate() {
        let place = Image { words: &words }.global(number).unwrap();
        words[place] = lent.intern(&mut state, name.as_bytes()).unwrap();
    }
    let tier = Image { words: &words }.global(3).unwrap();
    // 47 full units: one point each, two, three and 50, none
    for (name, points) in [("bronze", 47), ("silver", 94), ("gold", 191), ("none", 0)] {
        words[tier] = lent.intern(&mut state, name.as_bytes()).unwrap();
        state.reset(&mut lent.frames).unwrap();
        state.set_pc(0);
        let ran = state.run(100, &Image { words: &words }, &mut lent.frames, &mut lent.heap).unwrap();
        assert_eq!((ran.end, state.registers()[0]), (End::Halt, points), "{name}");
    }
}

#[test]
fn tables_of_both_kinds() {
    let mut lent = small();
    // Lookup r1, r0, Int, table 1; Switch Int r0, table 0; Halt; LoadI r2, 5; Halt
    let words = Sections {
        code: &[0x0000_0001_0100_0125, 0x0000_0000_0000_0124, 59, 0x0000_0005_0000_021b, 59],
        switches: &[Switch { first: 10, targets: &[2, 3] }],
        lookups: &[Lookup { first: 0, default: 8, values: &[1] }, Lookup { first: 10, default: 9, values: &[20, 30] }],
        ..Sections::EMPTY
    }
    .join();
    let image = Image { words: &words };
    for (subject, value, loaded, steps) in [(10, 20, 0, 3), (11, 30, 5, 4), (12, 9, 0, 3)] {
        let mut state = lent.start(&image).unwrap();
        state.set_register(0, subject).unwrap();
        let ran = state.run(10, &image, &mut lent.frames, &mut lent.heap).unwrap();
        assert_eq!((ran.end, ran.steps), (End::Halt, steps), "subject {subject}");
        assert_eq!(state.registers()[1..3], [value, loaded], "subject {subject}");
    }
}

#[test]
fn malformed_images_are_refused() {
    let mut lent = small();
    let mut state = lent.start(&COUNT).unwrap();
    let mut refused = |words: &[u64]| {
        assert_eq!(lent.start(&Image { words }), Err(Refusal::Size), "{words:?}");
        assert_eq!(state.run(9, &Image { words }, &mut lent.frames, &mut lent.heap), Err(Refusal::Size), "{words:?}");
    };
    // too few words, and too many
    for n in 0..9 {
        refused(&[9; 9][..n]);
    }
    refused(&vec![9; IMAGE_MAX + 1]);
    // one word more and one less than the ends say, and each end one off
    refused(&[9, 9, 9, 9, 9, 9, 9, 9, 9, 0]);
    refused(&COUNT.words[..11]);
    for i in 0..9 {
        for end in [11, 13, 0, u64::MAX] {
            let mut words = COUNT.words.to_vec();
            words[i] = end;
            // the code one word shorter makes a global of its Halt: the sections fit
            if (i, end) != (0, 11) {
                refused(&words);
            }
        }
    }
    // of one table of either kind: ends that fall, that stop before the entries do, that go past them, and one too many
    for (firsts, ends, entries) in
        [(&[1, 1][..], &[2, 1][..], &[0, 0][..]), (&[1], &[1], &[0, 0]), (&[1], &[2], &[0]), (&[1], &[0, 1], &[0])]
    {
        refused(&joined(&[&[59], &[], firsts, ends, entries, &[], &[], &[], &[]]));
        refused(&joined(&[&[59], &[], &[], &[], &[], firsts, ends, entries, &[0, 0][..firsts.len()]]));
    }
    // no default of a table, and one without a table
    refused(&joined(&[&[59], &[], &[], &[], &[], &[1], &[1], &[0], &[]]));
    refused(&joined(&[&[59], &[], &[], &[], &[], &[], &[], &[], &[0]]));
}

/// An image of sections that belong to no tables.
fn joined(sections: &[&[u64]; 9]) -> Vec<u64> {
    let mut end = 9;
    let ends = sections.iter().map(|section| {
        end += section.len() as u64;
        end
    });
    ends.chain(sections.concat()).collect()
}

#[test]
fn a_sale_after_one_that_stopped_in_a_function() {
    let mut lent = small();
    // Call 2; Halt; IDiv r1, r2, r0; Ret; Halt
    let words = code(&[0x0000_0002_0000_0027, 59, 0x0000_0000_0002_0106, 57, 59]);
    let image = Image { words: &words };
    let mut state = lent.start(&image).unwrap();
    let mut rate = |by: u64, depth: usize| {
        state.reset(&mut lent.frames).unwrap();
        state.set_pc(0);
        state.set_register(0, by).unwrap();
        state.set_register(2, 60).unwrap();
        let ran = state.run(10, &image, &mut lent.frames, &mut lent.heap).unwrap();
        assert_eq!(state.depth(), depth);
        (ran.end, state.registers()[1])
    };
    assert_eq!(rate(0, 2), (End::DivisionByZero, 0));
    assert_eq!(rate(5, 1), (End::Halt, 12));
}

#[test]
fn one_name_has_one_address() {
    let mut lent = Lent::new(1, 2, 128);
    let mut state = lent.start(&Image::EMPTY).unwrap();
    assert_eq!(lent.intern(&mut state, b""), Ok(BASE + 48));
    assert_eq!(lent.intern(&mut state, b"a"), Ok(BASE + 72));
    assert_eq!(lent.intern(&mut state, b"a"), Ok(BASE + 72));
    let word = u64::from(b'a');
    assert_eq!(state.intern_small(1, word, &mut lent.heap, &mut lent.slots, &mut lent.spare), Ok(BASE + 72));
    assert_eq!(state.names(), 2);
    let addresses: Vec<u64> = (0..40u8).map(|i| lent.intern(&mut state, &[b'n', i]).unwrap()).collect();
    let again: Vec<u64> = (0..40u8).map(|i| lent.intern(&mut state, &[b'n', i]).unwrap()).collect();
    assert_eq!((addresses, state.names()), (again, 42));
}

#[test]
fn blocks_and_options() {
    let mut lent = small();
    let mut state = lent.start(&Image::EMPTY).unwrap();
    assert_eq!(state.option(None, &mut lent.heap), Ok(BASE + 16));
    assert_eq!(state.allocate(Kind::Record, 8, 4049, &mut lent.heap), Ok(BASE + 4112));
    assert_eq!(state.option(Some(77), &mut lent.heap), Err(Refusal::Memory));
    let mut state = lent.start(&Image::EMPTY).unwrap();
    assert_eq!(state.option(Some(77), &mut lent.heap), Ok(BASE + 48));
    assert_eq!(lent.heap[48..64], [1, 0, 0, 0, 0, 0, 0, 0, 77, 0, 0, 0, 0, 0, 0, 0]);
}

#[test]
fn reset_leaves_registers_and_names() {
    let mut lent = small();
    let mut state = lent.start(&COUNT).unwrap();
    lent.intern(&mut state, b"gold").unwrap();
    state.run(10, &COUNT, &mut lent.frames, &mut lent.heap).unwrap();
    state.reset(&mut lent.frames).unwrap();
    assert_eq!((state.pc(), state.depth(), state.names(), state.registers()[1]), (usize::MAX, 1, 1, 6));
    assert_eq!(lent.frames[0], u64::MAX);
    state.set_pc(1);
    let ran = state.run(10, &COUNT, &mut lent.frames, &mut lent.heap);
    assert_eq!(ran, Ok(Ran { end: End::Halt, pc: 2, steps: 2 }));
}

#[test]
fn a_refused_start_says_why() {
    let refused = |lent: Lent, words: &[u64], base: u64, why: Refusal| {
        let (image, mut after) = (Image { words }, lent.clone());
        assert_eq!(State::start(base, &image, &mut after.frames, &mut after.heap, &after.slots, &after.spare), Err(why));
        assert_eq!(after, lent);
    };
    refused(small(), COUNT.words, BASE + 1, Refusal::Size);
    refused(Lent::new(0, 2, 64), COUNT.words, BASE, Refusal::Size);
    refused(Lent::new(4, 0, 64), COUNT.words, BASE, Refusal::Size);
    refused(Lent::new(4, 2, 63), COUNT.words, BASE, Refusal::Size);
    refused(small(), &code(&[60]), BASE, Refusal::NoHalt);
    refused(small(), &code(&[40, 59]), BASE, Refusal::Opcode);
    refused(small(), &code(&[0x201b, 59]), BASE, Refusal::Operand);
    refused(small(), &code(&[0x0002_001d, 59]), BASE, Refusal::Target);
    refused(small(), &code(&[0x1c, 59]), BASE, Refusal::Index);
    let switches = &[Switch { first: 0, targets: &[1] }];
    refused(small(), &Sections { code: &[59], switches, ..Sections::EMPTY }.join(), BASE, Refusal::TableTarget);
}

#[test]
fn a_refused_call_changes_nothing() {
    let mut lent = small();
    let mut state = lent.start(&COUNT).unwrap();
    for i in 0..32u8 {
        lent.intern(&mut state, &[i]).unwrap();
    }
    let mut calls: Vec<(Refusal, Box<dyn Fn(&mut State, &mut Lent) -> Result<(), Refusal>>)> = Vec::new();
    calls.push((Refusal::Operand, Box::new(|s, _| s.set_register(32, 1))));
    calls.push((Refusal::Size, Box::new(|s, _| s.reset(&mut []))));
    calls.push((Refusal::Size, Box::new(|s, l| s.run(9, &COUNT, &mut l.frames, &mut []).map(|_| ()))));
    calls.push((Refusal::NoHalt, Box::new(|s, l| s.run(9, &Image { words: &code(&[60]) }, &mut l.frames, &mut l.heap).map(|_| ()))));
    calls.push((Refusal::Operand, Box::new(|s, l| s.allocate(Kind::Array, 3, 8, &mut l.heap).map(|_| ()))));
    calls.push((Refusal::Operand, Box::new(|s, l| s.allocate_as(4, 8, 8, &mut l.heap).map(|_| ()))));
    calls.push((Refusal::Memory, Box::new(|s, l| s.allocate(Kind::Array, 8, u64::MAX, &mut l.heap).map(|_| ()))));
    calls.push((Refusal::Size, Box::new(|s, _| s.option(None, &mut []).map(|_| ()))));
    calls.push((Refusal::TableFull, Box::new(|s, l| l.intern(s, b"the 33rd").map(|_| ()))));
    calls.push((Refusal::SmallString, Box::new(|s, l| s.intern_small(9, 0, &mut l.heap, &mut l.slots, &mut l.spare).map(|_| ()))));
    for (why, call) in calls {
        let (mut after, mut buffers) = (state.clone(), lent.clone());
        assert_eq!(call(&mut after, &mut buffers), Err(why));
        assert_eq!((&after, &buffers), (&state, &lent), "{why}");
    }
    // words that no call has made
    let mut words = *state.words();
    words[WORD_DEPTH] = 5;
    let mut foreign = State::from_words(words);
    assert_eq!(foreign.run(9, &COUNT, &mut lent.frames, &mut lent.heap), Err(Refusal::State));
    assert_eq!(foreign.words(), &words);
}

#[test]
fn any_words_are_safe() {
    // a generator of Marsaglia's, so that a failure comes again
    let mut x = 0x9e37_79b9_7f4a_7c15_u64;
    let mut next = move || {
        x ^= x << 13;
        x ^= x >> 7;
        x ^= x << 17;
        x
    };
    let mut lent = small();
    let good = lent.start(&COUNT).unwrap();
    let mut refused = 0;
    for _ in 0..2000 {
        let mut words = *good.words();
        for _ in 0..1 + next() % 4 {
            let at = (next() % STATE_WORDS as u64) as usize;
            words[at] = next() >> (next() % 64);
        }
        let mut state = State::from_words(words);
        refused += usize::from(state.run(20, &COUNT, &mut lent.frames, &mut lent.heap).is_err());
        refused += usize::from(state.allocate(Kind::Record, 8, next() % 64, &mut lent.heap).is_err());
        refused += usize::from(lent.intern(&mut state, &next().to_le_bytes()[..3]).is_err());
    }
    assert!(refused > 0 && refused < 6000, "{refused} of 6000 calls were refused");
}
