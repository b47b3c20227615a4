//! Terminals, images and blocks at the edges of document 01's limits, one past them at times.
use super::program::{self, word};
use super::rng::Rng;
use super::values;
use crate::case::Case;
use crate::image::{Image, Lookup, Switch};
use crate::machine::{Call, Lent, PAGE};
use crate::model::word::{op, ROWS};

const HALT: u64 = op::Halt as u64;

pub fn case(rng: &mut Rng) -> Case {
    match rng.below(9) {
        0 => sizes(rng),
        1 => blocks(rng),
        2 => frames(rng),
        3 => full_table(rng),
        4 => big_image(rng),
        5 => budgets(rng),
        6 => refused_word(rng),
        7 => quotients(rng),
        _ => tables(rng),
    }
}

fn small() -> Lent {
    Lent { base: 0x10_0000, heap: 8 * PAGE, frames: 8, slots: 64, spare: 64, fill: 0x5a }
}

fn run(image: Image, budget: u64, lent: Lent) -> Case {
    Case { lent, images: vec![image], calls: vec![Call::Run { image: 0, budget }] }
}

/// A size or B at and past its limits.
fn sizes(rng: &mut Rng) -> Case {
    let mut lent = small();
    match rng.below(6) {
        0 => lent.frames = *rng.one_of(&[0, 1, 2, 16_383, 16_384, 16_385]),
        1 => lent.heap = *rng.one_of(&[0, 1, 4095, PAGE, 4097, 255 * PAGE, 256 * PAGE, 257 * PAGE]),
        2 => {
            lent.slots = *rng.one_of(&[0, 1, 32, 63, 64, 65, 96, 128, 4096, 8192]);
            lent.spare = if rng.one_in(3) { 64 } else { lent.slots };
        }
        3 => {
            lent.base =
                *rng.one_of(&[0, 1, 4095, 4096, 4097, 8192, 1 << 47, (1 << 48) - 8 * PAGE, (1 << 48) - 7 * PAGE, !0 << 12])
        }
        4 => lent.base = PAGE * rng.from_to(0, 40) + rng.below(2),
        _ => lent.spare = *rng.one_of(&[0, 64, 128]),
    }
    let mut case = run(program::image(rng, &[], lent), 10_000, lent);
    case.calls.insert(0, Call::Intern(values::name(rng)));
    case
}

/// Blocks at the edges of a page and of the heap.
fn blocks(rng: &mut Rng) -> Case {
    let lent = Lent { heap: PAGE * rng.from_to(1, 4), ..small() };
    let mut calls = Vec::new();
    for _ in 0..rng.from_to(1, 12) {
        let edge = *rng.one_of(&[0, 1, 8, 16, 4000, 4047, 4048, 4049, 4071, 4072, 4073, 4080, 8167, 8168, 8169, 12_264, 12_265]);
        let size = if rng.one_in(4) { rng.below(4200) } else { edge };
        match rng.below(4) {
            0 => calls.push(Call::Intern(vec![b'x'; size as usize])),
            1 => calls.push(Call::NewOption(Some(size))),
            _ => calls.push(Call::Allocate { kind: rng.below(4), align: 8, size }),
        }
    }
    Case { lent, images: vec![Image::default()], calls }
}

/// A chain of calls as deep as the frames, less, and one more; ended by Halt inside it at times, then gone on with.
fn frames(rng: &mut Rng) -> Case {
    let frames = rng.from_to(1, 6);
    let lent = Lent { frames, ..small() };
    let depth = rng.below(frames + 2);
    let mut code: Vec<u64> = (0..depth).map(|i| word(op::Call, 0, 0, 0, i as u32 + 1)).collect();
    code.push(if rng.one_in(2) { HALT } else { word(op::Ret, 0, 0, 0, 0) });
    if rng.one_in(2) {
        code.push(word(op::Ret, 0, 0, 0, 0));
    }
    code.push(HALT);
    let shorter =
        Image { code: code[code.len() / 2..].iter().filter(|&&w| w & 0xff != 39).copied().collect(), ..Image::default() };
    let mut calls = vec![Call::Run { image: 0, budget: 100 }];
    for _ in 0..rng.below(4) {
        calls.push(match rng.below(5) {
            0 => Call::Reset,
            1 => Call::SetPc(rng.below(code.len() as u64 + 1)),
            2 => Call::Run { image: 1, budget: 100 },
            _ => Call::Run { image: 0, budget: 100 },
        });
    }
    Case { lent, images: vec![Image { code, ..Image::default() }, shorter], calls }
}

/// One name more than the slots hold, with the heap full or not: 18, then 2.
fn full_table(rng: &mut Rng) -> Case {
    let lent = Lent { heap: PAGE * rng.from_to(1, 2), ..small() };
    let mut calls: Vec<Call> = (0..rng.from_to(31, 34)).map(|n| Call::Intern(format!("{n}").into_bytes())).collect();
    if rng.one_in(2) {
        calls.push(Call::Allocate { kind: 1, align: 1, size: rng.from_to(2800, 4060) });
    }
    for _ in 0..3 {
        calls.push(Call::Intern(values::name(rng)));
        calls.push(Call::InternSmall { len: 2, word: 0x3131 });
    }
    Case { lent, images: vec![Image::default()], calls }
}

/// Code, globals and tables as many as there may be, and one more.
fn big_image(rng: &mut Rng) -> Case {
    let nop = u64::from(op::Nop);
    let mut image = Image { code: vec![HALT], ..Image::default() };
    match rng.below(4) {
        0 => {
            let words = rng.from_to(65_534, 65_537) as usize;
            let last = (words - 1) as u32 & 0xffff;
            image.code = vec![nop; words - 1];
            image.code.push(HALT);
            image.code[0] = word(op::Jmp, 0, 0, 0, 0) | u64::from(last) << 16;
        }
        1 => {
            let globals = rng.from_to(4095, 4097);
            image.globals = (0..globals).collect();
            image.code.insert(0, word(op::LoadG, 3, 0, 0, 4094 + rng.below(3) as u32));
        }
        2 => {
            let tables = rng.from_to(255, 257);
            let last = 254 + rng.below(3) as u32;
            let kind = rng.below(2);
            let mut entries = || vec![1; rng.below(3) as usize];
            if kind == 0 {
                image.switches = (0..tables).map(|first| Switch { first, targets: entries() }).collect();
                image.code.insert(0, word(op::Switch, 1, 0, 0, last));
            } else {
                image.lookups = (0..tables).map(|first| Lookup { first, default: 9, values: entries() }).collect();
                image.code.insert(0, word(op::Lookup, 5, 1, 1, last));
            }
        }
        _ => {
            let entries = rng.from_to(4094, 4097) as usize;
            let halves = [(1, entries / 2), (2, entries - entries / 2)];
            let table = rng.below(3) as u32;
            if rng.one_in(2) {
                image.switches = halves.map(|(_, n)| Switch { first: 0, targets: vec![1; n] }).into();
                image.code.insert(0, word(op::Switch, 1, 0, 0, table));
            } else {
                image.lookups = halves.map(|(v, n)| Lookup { first: 0, default: 10 - v, values: vec![v; n] }).into();
                image.code.insert(0, word(op::Lookup, 5, 1, 1, table));
            }
        }
    }
    run(image, 100, small())
}

/// Budgets 0, 1, exact, one less and one more, and the most that there is.
fn budgets(rng: &mut Rng) -> Case {
    let turns = rng.from_to(1, 5);
    let code = vec![word(op::LoadI, 0, 0, 0, turns as u32), word(op::ISubI, 0, 0, 0, 1), word(op::JmpNeI, 0, 1, 0, 0), HALT];
    let steps = 2 + 2 * turns;
    let budget = *rng.one_of(&[0, 1, steps - 1, steps, steps + 1, u64::from(u32::MAX)]);
    let mut case = run(Image { code, ..Image::default() }, budget, small());
    // the rest of it, after 5
    case.calls.push(Call::Run { image: 0, budget: steps });
    case
}

/// Divisions at their edges: −2^63 by −1 in half of them, which is 7.
fn quotients(rng: &mut Rng) -> Case {
    const LEAST: u64 = 1 << 63;
    let any = (*rng.one_of(&[0, 7, 7u64.wrapping_neg(), LEAST, LEAST + 1, LEAST - 1]), *rng.one_of(&[0, 1, 2, !0, !1]));
    let (dividend, divisor) = if rng.one_in(2) { (LEAST, !0) } else { any };
    let opcode = *rng.one_of(&[op::IDiv, op::IMod, op::IDivI, op::IModI]);
    let rhs = if matches!(opcode, op::IDiv | op::IMod) { (1, 0) } else { (0, divisor as u32) };
    let code = vec![word(op::LoadG, 0, 0, 0, 0), word(op::LoadG, 1, 0, 0, 1), word(opcode, 2, 0, rhs.0, rhs.1), HALT];
    run(Image { code, globals: vec![dividend, divisor], ..Image::default() }, 50, small())
}

/// A word at or past the edge of what the loader takes: of any opcode, or of one of the first three that there are not.
fn refused_word(rng: &mut Rng) -> Case {
    let mut bad = rng.below(ROWS.len() as u64 + 3);
    for byte in 1..8 {
        let value = match rng.below(8) {
            0..=4 => 0,
            5 => 31,
            6 => *rng.one_of(&[1, 2, 3, 4, 5, 7, 8, 9]),
            _ => *rng.one_of(&[32, 33, 128, 255]),
        };
        bad |= value << (8 * byte);
    }
    let code = vec![word(op::Nop, 0, 0, 0, 0), bad, if rng.one_in(10) { bad } else { HALT }];
    let image = Image {
        code,
        globals: vec![7; 3],
        switches: vec![Switch { first: 0, targets: vec![rng.below(4)] }],
        lookups: vec![Lookup { first: 0, default: 5, values: vec![6] }],
    };
    run(image, 50, small())
}

/// `Switch` and `Lookup` at the first key, below it, at the last and past it, with empty tables too.
fn tables(rng: &mut Rng) -> Case {
    let first = *rng.one_of(&[0, 1, 100, 0x10_0030, u64::MAX, u64::MAX - 2, 1 << 63]);
    let count = rng.below(5);
    let subject = first.wrapping_add(rng.below(20)).wrapping_sub(2);
    let kind = rng.below(2);
    let code = vec![
        word(op::LoadG, 1, 0, 0, 0),
        word(op::Lookup, 2, 1, kind, 0),
        word(op::Switch, kind, 1, 0, 0),
        word(op::LoadI, 3, 0, 0, 1),
        word(op::IAddI, 3, 3, 0, 10),
        word(op::IAddI, 3, 3, 0, 100),
        HALT,
    ];
    let image = Image {
        code,
        globals: vec![subject],
        switches: vec![Switch { first, targets: (0..count).map(|_| rng.from_to(3, 6)).collect() }],
        lookups: vec![Lookup { first, default: 77, values: (0..count).map(|i| 1000 + i).collect() }],
    };
    run(image, 50, small())
}
