//! Document 01, 'Ends and numbers': each refusal, and their order.
use oracle::generate::program::word;
use oracle::image::{Image, Lookup, Switch};
use oracle::machine::{Answer, Call, Lent, Machine};
use oracle::model::Model;
use oracle::model::word::{Format, ROWS, op};

const B: u64 = 0x10_0000;
const LENT: Lent = Lent { base: B, heap: 8 * 4096, frames: 4, slots: 64, spare: 64, fill: 0 };
const HALT: u64 = 59;

fn start(lent: Lent, image: &Image) -> Option<u8> {
    Model::start(lent, image).err()
}

fn code(words: &[u64]) -> Image {
    Image { code: words.to_vec(), ..Image::default() }
}

/// One global, one table a kind.
fn refused(w: u64) -> Option<u8> {
    let image =
        Image { code: vec![w, HALT], globals: vec![0], switches: vec![Switch::default()], lookups: vec![Lookup::default()] };
    start(LENT, &image)
}

#[test]
fn the_instructions_stand_as_in_op_rs() {
    let source = include_str!("../target/original/src/op.rs");
    let body = &source[source.find("pub enum Op {").unwrap()..];
    // a variant is a name at the first indentation
    let names = body.lines().skip(1).take_while(|line| *line != "}").filter_map(|line| {
        let name = line.strip_prefix("    ")?.trim_end_matches([' ', '{', ',']);
        name.starts_with(|c: char| c.is_ascii_uppercase()).then_some(name)
    });
    // 'from 0 (IAdd) to 60 (Nop), all 61 numbered'; what is added stands behind them
    assert!(names.eq(ROWS.iter().map(|(name, _)| *name).take(61)));
}

#[test]
fn sizes() {
    let image = code(&[HALT]);
    let of = |lent| start(lent, &image);
    assert_eq!(of(LENT), None);
    for frames in [0, 16_385] {
        assert_eq!(of(Lent { frames, ..LENT }), Some(10));
    }
    for frames in [1, 16_384] {
        assert_eq!(of(Lent { frames, ..LENT }), None);
    }
    for heap in [0, 4095, 4097, 257 * 4096] {
        assert_eq!(of(Lent { heap, ..LENT }), Some(10));
    }
    for heap in [4096, 256 * 4096] {
        assert_eq!(of(Lent { heap, ..LENT }), None);
    }
    for (slots, spare) in [(0, 0), (32, 32), (96, 96), (8192, 8192), (64, 128), (128, 64)] {
        assert_eq!(of(Lent { slots, spare, ..LENT }), Some(10));
    }
    for slots in [64, 4096] {
        assert_eq!(of(Lent { slots, spare: slots, ..LENT }), None);
    }
    for base in [0, 1, 4097, (1 << 48) - 7 * 4096, 1 << 48, u64::MAX - 4095] {
        assert_eq!(of(Lent { base, ..LENT }), Some(10));
    }
    for base in [4096, (1 << 48) - 8 * 4096] {
        assert_eq!(of(Lent { base, ..LENT }), None);
    }
}

#[test]
fn sizes_of_images() {
    let nops = |n: usize| code(&[vec![60; n - 1], vec![HALT]].concat());
    assert_eq!((start(LENT, &nops(65_536)), start(LENT, &nops(65_537))), (None, Some(10)));
    let globals = |n| Image { globals: vec![0; n], ..code(&[HALT]) };
    assert_eq!((start(LENT, &globals(4096)), start(LENT, &globals(4097))), (None, Some(10)));
    let switches = |n, each| Image { switches: vec![Switch { first: 0, targets: vec![0; each] }; n], ..code(&[HALT]) };
    assert_eq!((start(LENT, &switches(256, 16)), start(LENT, &switches(257, 0))), (None, Some(10)));
    assert_eq!(start(LENT, &switches(17, 241)), Some(10));
    let lookups = |n, each| Image { lookups: vec![Lookup { values: vec![0; each], ..Lookup::default() }; n], ..code(&[HALT]) };
    assert_eq!((start(LENT, &lookups(256, 16)), start(LENT, &lookups(257, 0))), (None, Some(10)));
    // the two kinds are not added up
    let both = Image { switches: switches(1, 4096).switches, ..lookups(1, 4096) };
    assert_eq!((start(LENT, &both), start(LENT, &lookups(1, 4097))), (None, Some(10)));
}

#[test]
fn the_last_word() {
    assert_eq!(start(LENT, &code(&[])), None);
    assert_eq!(start(LENT, &code(&[HALT, 60])), Some(11));
    // 'byte 0 of the last word': another byte set is 13 at its turn
    assert_eq!(start(LENT, &code(&[HALT | 1 << 8])), Some(13));
}

#[test]
fn opcodes() {
    for opcode in 0..256 {
        let absent = (40..50).contains(&opcode) || opcode >= ROWS.len() as u64;
        // every other byte wrong: 12 stands before 13
        assert_eq!(refused(opcode | !0 << 8), Some(if absent { 12 } else { 13 }), "{opcode}");
    }
}

/// For each instruction a word that is taken, and which of its bits may be set one at a time.
#[test]
fn every_unused_byte() {
    // used bytes by document 01: registers and fields
    let used: [(&[u8], &[u32]); 10] = [
        (&[57, 59, 60], &[]),
        (&[58], &[1]),
        (&[26, 50, 51, 52], &[1, 2]),
        (&[0, 2, 4, 6, 8, 10, 12, 13, 14, 18, 19, 20, 21, 22, 23, 24, 25], &[1, 2, 3]),
        (&[1, 3, 5, 7, 9, 11, 15, 16, 17, 54, 55, 56, 36], &[1, 2, 4, 5, 6, 7]),
        (&[27, 28], &[1, 4, 5, 6, 7]),
        (&[29], &[2, 3]),
        (&[30, 31], &[1, 2, 3]),
        (&[34, 35], &[1, 2, 3, 4]),
        (&[38, 39], &[4, 5, 6, 7]),
    ];
    for (opcodes, bytes) in used {
        for &opcode in opcodes {
            assert_eq!(refused(opcode.into()), None, "{opcode}");
            for unused in (1..8).filter(|n| !bytes.contains(n)) {
                assert_eq!(refused(u64::from(opcode) | 1 << (8 * unused)), Some(13), "{opcode}, byte {unused}");
            }
        }
    }
    // 32, 33, 37 and 53 use every byte; no instruction is left out
    let listed = used.iter().map(|(opcodes, _)| opcodes.len()).sum::<usize>() + 4;
    assert_eq!(listed, ROWS.iter().filter(|(_, format)| *format != Format::Absent).count());
    assert_eq!((refused(32), refused(33), refused(37), refused(53 | 1 << 24)), (None, None, None, None));
}

#[test]
fn registers_kinds_and_aligns() {
    let reg3 = |a, b, c| refused(word(op::IAdd, a, b, c, 0));
    assert_eq!([reg3(31, 31, 31), reg3(32, 0, 0), reg3(0, 32, 0), reg3(0, 0, 32)], [None, Some(13), Some(13), Some(13)]);
    assert_eq!((refused(34 | 31 << 32), refused(34 | 32 << 32)), (None, Some(13)));
    let alloc = |kind, align| refused(word(op::Alloc, 0, kind, align, 0));
    assert_eq!([1, 2, 4, 8].map(|align| alloc(3, align)), [None; 4]);
    assert_eq!([alloc(4, 8), alloc(0, 0), alloc(0, 3), alloc(0, 16)], [Some(13); 4]);
    // Switch: kind byte 1, subject byte 2; Lookup: dst, subject, kind
    let (switch, lookup) = (|a, b| refused(word(op::Switch, a, b, 0, 0)), |a, b, c| refused(word(op::Lookup, a, b, c, 0)));
    assert_eq!([switch(1, 31), switch(2, 0), switch(0, 32)], [None, Some(13), Some(13)]);
    assert_eq!([lookup(31, 31, 1), lookup(0, 0, 2), lookup(32, 0, 0), lookup(0, 32, 0)], [None, Some(13), Some(13), Some(13)]);
}

#[test]
fn targets_and_indices() {
    for opcode in [29, 30, 31, 32, 33, 34, 35] {
        assert_eq!((refused(opcode | 1 << 16), refused(opcode | 2 << 16)), (None, Some(14)), "{opcode}");
    }
    for opcode in [38, 39] {
        assert_eq!((refused(opcode | 1 << 32), refused(opcode | 2 << 32)), (None, Some(14)), "{opcode}");
    }
    for opcode in [28, 36, 37] {
        assert_eq!((refused(opcode), refused(opcode | 1 << 32)), (None, Some(15)), "{opcode}");
    }
}

#[test]
fn the_order() {
    let past = Switch { first: 0, targets: vec![2] };
    let with = |words: &[u64], switches: Vec<Switch>| Image { switches, ..code(words) };
    // 11 before 16, 16 before 12
    assert_eq!(start(LENT, &with(&[40, 60], vec![past.clone()])), Some(11));
    assert_eq!(start(LENT, &with(&[40, HALT], vec![past.clone()])), Some(16));
    // on empty code every target is past it
    assert_eq!(start(LENT, &with(&[], vec![Switch { first: 0, targets: vec![0] }])), Some(16));
    // word by word: 15 of the first before 12 of the second
    assert_eq!(start(LENT, &code(&[28, 40, HALT])), Some(15));
    // 10 first
    assert_eq!(start(Lent { frames: 0, ..LENT }, &with(&[40, 60], vec![past])), Some(10));
}

fn machine() -> Model {
    Model::start(LENT, &Image::default()).unwrap()
}

const RUN: Call = Call::Run { image: 0, budget: 10 };

fn all_calls() -> [Call; 8] {
    [
        RUN,
        Call::Allocate { kind: 0, align: 8, size: 8 },
        Call::NewOption(None),
        Call::NewOption(Some(1)),
        Call::Intern(b"a".to_vec()),
        Call::InternSmall { len: 1, word: 0x61 },
        Call::Reset,
        Call::SetPc(0),
    ]
}

/// Which of the calls a made-up state refuses, by 9.
fn refuse_9(edit: impl Fn(&mut Model)) -> [bool; 8] {
    all_calls().map(|call| {
        let mut model = machine();
        edit(&mut model);
        let before = (model.state.clone(), model.heap.clone(), model.frames.clone(), model.slots.clone());
        let answer = model.call(&[code(&[HALT])], &call);
        if answer == Answer::Refused(9) {
            // 'unchanged'
            assert_eq!(before, (model.state.clone(), model.heap.clone(), model.frames.clone(), model.slots.clone()));
        }
        answer == Answer::Refused(9)
    })
}

#[test]
fn states_that_cannot_belong() {
    let none = [false; 8];
    let run = [true, false, false, false, false, false, false, false];
    let pages = [true, true, true, true, true, true, false, false];
    let names = [false, false, false, false, true, true, false, false];
    assert_eq!(refuse_9(|_| {}), none);
    assert_eq!(refuse_9(|m| m.state.depth = 5), run);
    assert_eq!(refuse_9(|m| m.state.depth = 4), run, "a return that isn't below the last word's place");
    assert_eq!(refuse_9(|m| m.state.pushed = 0), pages);
    assert_eq!(refuse_9(|m| m.state.pushed = 4095), pages);
    assert_eq!(refuse_9(|m| m.state.pushed = 9 * 4096), pages);
    assert_eq!(refuse_9(|m| m.state.page = 4096), pages);
    assert_eq!(refuse_9(|m| m.state.page = 8), pages);
    assert_eq!(refuse_9(|m| m.state.len = 4097), pages);
    assert_eq!(refuse_9(|m| m.state.len = 4096), none);
    assert_eq!(refuse_9(|m| m.state.active = 32), names);
    assert_eq!(refuse_9(|m| m.state.active = 128), names);
    assert_eq!(refuse_9(|m| m.state.active = 64), none);
    assert_eq!(refuse_9(|m| m.state.names = 1), names);
    let filled = |m: &mut Model, n: u64, v: u64| {
        m.state.active = 64;
        m.state.names = n;
        m.slots[..n as usize].fill(v);
    };
    assert_eq!(refuse_9(|m| filled(m, 32, B + 16)), none);
    assert_eq!(refuse_9(|m| filled(m, 33, B + 16)), names, "doubled above the active slots");
    assert_eq!(refuse_9(|m| filled(m, 1, B + 4088)), none);
    assert_eq!(refuse_9(|m| filled(m, 1, B + 4089)), names);
    assert_eq!(refuse_9(|m| filled(m, 1, B - 1)), names);
    assert_eq!(refuse_9(|m| filled(m, 1, u64::MAX)), names);
}

#[test]
fn returns_are_looked_at_for_code_that_is_not_empty() {
    let at = |words: &[u64], frames: [u64; 3]| {
        let mut model = machine();
        model.state.depth = 3;
        model.frames[..3].copy_from_slice(&frames);
        model.call(&[code(words)], &RUN)
    };
    let refused = Answer::Refused(9);
    assert_eq!(at(&[60, 60, HALT], [9, 1, 0]), Answer::End { number: 0, pc: 2, steps: Some(3) });
    assert_eq!(at(&[60, 60, HALT], [9, 2, 0]), refused);
    assert_eq!(at(&[60, 60, HALT], [9, 0, 2]), refused);
    assert_eq!(at(&[], [9, 2, 2]), Answer::End { number: 0, pc: 0, steps: Some(0) });
}

#[test]
fn every_call_gives_10_for_what_it_lends() {
    let refuse_10 = |edit: fn(&mut Model)| {
        all_calls().map(|call| {
            let mut model = machine();
            edit(&mut model);
            model.call(&[code(&[HALT])], &call) == Answer::Refused(10)
        })
    };
    assert_eq!(refuse_10(|m| m.frames.clear()), [true, false, false, false, false, false, true, false]);
    assert_eq!(refuse_10(|m| m.heap.truncate(4095)), [true, true, true, true, true, true, false, false]);
    assert_eq!(refuse_10(|m| m.slots.truncate(63)), [false, false, false, false, true, true, false, false]);
    assert_eq!(refuse_10(|m| m.spare.push(0)), [false, false, false, false, true, true, false, false]);
    // a run's image too, and before 9
    let mut model = machine();
    model.state.depth = 9;
    assert_eq!(model.call(&[Image { globals: vec![0; 4097], ..Image::default() }], &RUN), Answer::Refused(10));
    assert_eq!(model.call(&[code(&[60])], &RUN), Answer::Refused(11));
}

#[test]
fn host_calls() {
    let of = |call| machine().call(&[], &call);
    let refused = |n| Answer::Refused(n);
    assert_eq!(of(Call::SetRegister { register: 32, value: 0 }), refused(13));
    assert_eq!(of(Call::SetRegister { register: 31, value: 0 }), Answer::Done);
    assert_eq!(of(Call::Allocate { kind: 4, align: 8, size: 0 }), refused(13));
    assert_eq!(of(Call::Allocate { kind: 0, align: 3, size: 0 }), refused(13));
    assert_eq!(of(Call::InternSmall { len: 9, word: 0 }), refused(17));
    assert_eq!(of(Call::InternSmall { len: 1, word: 0x161 }), refused(17));
    assert_eq!(of(Call::InternSmall { len: 0, word: 1 }), refused(17));
    assert_eq!(of(Call::InternSmall { len: 8, word: !0 }), Answer::Value(B + 48));
    // 13 before 9, 9 before 17
    let broken = |call| {
        let mut model = machine();
        model.state.pushed = 0;
        model.call(&[], &call)
    };
    assert_eq!(broken(Call::Allocate { kind: 4, align: 8, size: 0 }), refused(13));
    assert_eq!(broken(Call::InternSmall { len: 9, word: 0 }), refused(9));
}

#[test]
fn a_full_table_and_a_full_heap() {
    let name = |n: u64| Call::Intern(n.to_string().into_bytes());
    let mut model = machine();
    for n in 0..32 {
        assert!(matches!(model.call(&[], &name(n)), Answer::Value(_)));
    }
    let before = model.clone();
    assert_eq!(model.call(&[], &name(32)), Answer::Refused(18));
    assert_eq!((&before.state, &before.heap, &before.slots), (&model.state, &model.heap, &model.slots));
    // what is there is found
    assert!(matches!(model.call(&[], &name(31)), Answer::Value(_)));
    // 18 before 2
    while model.call(&[], &Call::Allocate { kind: 0, align: 8, size: 2000 }) != Answer::Refused(2) {}
    let long = Call::Intern(vec![b'x'; 5000]);
    assert_eq!(model.call(&[], &long), Answer::Refused(18));
    let mut empty = machine();
    while empty.call(&[], &Call::Allocate { kind: 0, align: 8, size: 2000 }) != Answer::Refused(2) {}
    assert_eq!(empty.call(&[], &long), Answer::Refused(2));
}
