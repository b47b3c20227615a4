//! Lists of host calls, with runs among them.
use super::program;
use super::rng::Rng;
use super::values;
use crate::case::Case;
use crate::image::Image;
use crate::machine::{Answer, Buffer, Call, Field, Lent, Machine, PAGE};
use crate::model::{self, Model};

/// A terminal of some size.
pub fn lent(rng: &mut Rng) -> Lent {
    let base = match rng.below(4) {
        0 => 0x10_0000,
        1 => 0x1_0000,
        2 => PAGE * rng.from_to(0x10, 0x1_0000),
        _ => PAGE * rng.from_to(0x10, 0x4_0000_0000),
    };
    let pages = match rng.below(10) {
        0 => rng.from_to(1, 3),
        1..=8 => rng.from_to(8, 24),
        _ => rng.from_to(1, 64),
    };
    let frames = if rng.one_in(5) { rng.from_to(1, 4) } else { rng.from_to(4, 80) };
    let slots = 64 << rng.below(3);
    Lent { base, heap: pages * PAGE, frames, slots, spare: slots, fill: *rng.one_of(&[0, 0xff, 0xa5]) }
}

const BUDGET: u64 = 200_000;

/// Names interned, then a program that uses them, at times more than one and more than once.
pub fn programs(rng: &mut Rng) -> Case {
    let lent = lent(rng);
    let mut calls = Vec::new();
    let names = intern(rng, lent, &mut calls);
    let mut images = vec![program::image(rng, &names, lent)];
    calls.push(Call::Run { image: 0, budget: BUDGET });
    while rng.one_in(4) {
        match rng.below(4) {
            0 => {
                images.push(program::image(rng, &names, lent));
                calls.extend([Call::Reset, Call::SetPc(0)]);
                calls.push(Call::Run { image: images.len() - 1, budget: BUDGET });
            }
            1 => {
                calls.extend([
                    Call::Reset,
                    Call::SetPc(0),
                    Call::SetRegister { register: rng.below(10), value: values::int(rng) },
                ]);
                calls.push(Call::Run { image: 0, budget: BUDGET });
            }
            // from where it stands
            2 => calls.push(Call::Run { image: rng.below(images.len() as u64) as usize, budget: BUDGET }),
            _ => {
                let call = host_call(rng);
                calls.push(call);
            }
        }
    }
    Case { lent, images, calls }
}

/// Interns some names, and tells for each its place among the globals and its value.
fn intern(rng: &mut Rng, lent: Lent, calls: &mut Vec<Call>) -> Vec<(usize, u64)> {
    let mut model = Model::start(lent, &Image::default()).expect("a terminal within the limits");
    let mut names: Vec<(usize, u64)> = Vec::new();
    let count = if rng.one_in(10) { rng.below(80) } else { rng.below(9) };
    for _ in 0..count {
        let call = Call::Intern(values::name(rng));
        if let Answer::Value(value) = model.call(&[], &call) {
            names.push((names.len(), value));
        }
        calls.push(call);
    }
    names
}

fn host_call(rng: &mut Rng) -> Call {
    match rng.below(20) {
        0..6 => Call::Intern(values::name(rng)),
        6..9 => {
            let name = values::name(rng);
            if name.len() <= 8 {
                return Call::InternSmall { len: name.len() as u64, word: model::small_word(&name) };
            }
            // at times with too many bytes or with padding that is not zero
            let len = if rng.one_in(12) { rng.below(12) } else { rng.below(9) };
            let word = small_word(rng, len);
            Call::InternSmall { len, word }
        }
        9..13 => Call::Allocate {
            kind: if rng.one_in(20) { rng.below(8) } else { rng.below(4) },
            align: if rng.one_in(20) { rng.below(20) } else { 1 << rng.below(4) },
            size: match rng.below(6) {
                0 => rng.from_to(4030, 4100),
                1 => rng.from_to(8150, 8200),
                2 => rng.word() >> rng.below(64),
                _ => rng.below(200),
            },
        },
        13..16 => Call::NewOption(if rng.one_in(4) { None } else { Some(values::int(rng)) }),
        16 => Call::SetRegister { register: if rng.one_in(10) { rng.below(40) } else { rng.below(32) }, value: values::int(rng) },
        17 => Call::SetPc(if rng.one_in(4) { values::int(rng) } else { rng.below(60) }),
        18 => Call::SetPc(0),
        _ => Call::Reset,
    }
}

/// The word of a small name, mostly of letters.
fn small_word(rng: &mut Rng, len: u64) -> u64 {
    if rng.one_in(20) {
        return rng.word();
    }
    let bytes = (0..len.min(8)).map(|_| *rng.one_of(b"abcdefgh"));
    bytes.fold(0, |word, b| word << 8 | u64::from(b))
}

/// Any calls in any order, runs of two images among them.
pub fn list(rng: &mut Rng) -> Case {
    let lent = lent(rng);
    let mut calls = Vec::new();
    let names = intern(rng, lent, &mut calls);
    let images = vec![program::image(rng, &names, lent), program::image(rng, &names, lent), Image::default()];
    for _ in 0..rng.from_to(5, 60) {
        match rng.below(12) {
            0 => calls.extend([Call::Reset, Call::SetPc(0), Call::Run { image: rng.below(2) as usize, budget: BUDGET }]),
            1 if rng.one_in(4) => calls.push(Call::Run { image: rng.below(3) as usize, budget: rng.below(100) }),
            1 => calls.push(Call::Run { image: rng.below(3) as usize, budget: BUDGET }),
            _ => {
                let call = host_call(rng);
                calls.push(call);
            }
        }
    }
    Case { lent, images, calls }
}

/// A list with states and buffers made up in places, at the edges of what 9 and 10 test.
pub fn made_up(rng: &mut Rng) -> Case {
    let mut case = list(rng);
    for _ in 0..rng.from_to(1, 4) {
        let at = rng.below(case.calls.len() as u64 + 1) as usize;
        let Lent { base, heap, frames, slots, .. } = case.lent;
        let words = case.images[0].code.len() as u64;
        let near = |rng: &mut Rng, n: u64| n.wrapping_add(rng.below(3)).wrapping_sub(1);
        let page = PAGE * rng.below(heap / PAGE + 2);
        let page = near(rng, page);
        let (field, value) = match rng.below(13) {
            0 => (Field::Depth, near(rng, frames)),
            1 => (Field::Pushed, page),
            2 => (Field::Page, page),
            3 => {
                let len = *rng.one_of(&[0, 32, PAGE, 2 * PAGE]);
                (Field::Len, near(rng, len))
            }
            4 => (Field::Active, *rng.one_of(&[0, 32, 64, 96, 128, slots, slots * 2])),
            5 => (Field::Names, rng.below(40)),
            6 => (Field::Frame(rng.below(frames) as usize), near(rng, words)),
            7 => {
                let address = base + rng.one_of(&[0, 16, 48, PAGE, heap, heap - 8]);
                (Field::Slot(rng.below(slots) as usize), near(rng, address))
            }
            8 => {
                let last = (1 << 48) - heap;
                (Field::Base, *rng.one_of(&[0, 1, PAGE, base + 1, base + PAGE, last, last + PAGE, !0 << 12]))
            }
            9 => (Field::Lent(Buffer::Frames), *rng.one_of(&[0, 1, 2, 16_384, 16_385])),
            10 => (Field::Lent(Buffer::Heap), *rng.one_of(&[0, 4095, PAGE, PAGE + 1, heap + PAGE, 256 * PAGE, 257 * PAGE])),
            11 => (Field::Lent(Buffer::Slots), *rng.one_of(&[0, 32, 63, 64, 128, 4096, 8192])),
            _ => (Field::Lent(Buffer::Spare), *rng.one_of(&[0, 64, slots, slots * 2])),
        };
        // a length is one that can be had
        let any = !matches!(field, Field::Lent(_)) && rng.one_in(8);
        let value = if any { values::int(rng) } else { value };
        case.calls.insert(at, Call::MakeUp { field, value });
    }
    case
}

/// Names past each growth, and again.
pub fn many_names(rng: &mut Rng) -> Case {
    let slots = 64 << rng.below(7);
    let lent = Lent { slots, spare: slots, heap: 64 * PAGE, ..lent(rng) };
    // half full is the most that there can be: up to two names more
    let most = slots / 2 + rng.below(3);
    let count = if rng.one_in(4) { most } else { rng.below(most) };
    let mut calls: Vec<Call> = (0..count).map(|n| named(rng, n)).collect();
    for _ in 0..rng.below(40) {
        let n = rng.below(count + 2);
        calls.push(named(rng, n));
    }
    Case { lent, images: vec![Image::default()], calls }
}

fn named(rng: &mut Rng, n: u64) -> Call {
    let name = format!("n{n:x}");
    if name.len() <= 8 && rng.one_in(3) {
        Call::InternSmall { len: name.len() as u64, word: model::small_word(name.as_bytes()) }
    } else {
        Call::Intern(name.into_bytes())
    }
}
