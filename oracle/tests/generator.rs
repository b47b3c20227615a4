//! The generated programs do something: every carried instruction is executed, and runs come to every end.
use oracle::case::Case;
use oracle::generate;
use oracle::generate::values::SAME_HASH;
use oracle::image::Image;
use oracle::machine::{Answer, Call, Machine, PAGE};
use oracle::model::word::{Format, ROWS, op};
use oracle::model::{Model, hash};

#[test]
fn names_of_one_hash() {
    for (one, other) in SAME_HASH {
        assert_eq!((hash(one.as_bytes()), one.len()), (hash(other.as_bytes()), other.len()));
        assert_ne!(one, other);
    }
}

const CASES: u64 = 1500;

#[test]
fn every_instruction_is_executed() {
    let mut executed = [0u64; 256];
    let mut ends = [0u64; 9];
    for number in 0..CASES {
        let case = generate::case(5, number);
        let Ok(mut model) = Model::start(case.lent, &case.images[0]) else { continue };
        for call in &case.calls {
            let Call::Run { image, budget } = *call else {
                model.call(&case.images, call);
                continue;
            };
            // step by step, so that each instruction is seen; the stored pc of a stop is then another, which matters to no count
            let mut left = budget.min(20_000);
            loop {
                let word = case.images[image].code.get(model.state.pc as usize).copied();
                match model.call(&case.images, &Call::Run { image, budget: 1.min(left) }) {
                    Answer::End { number: 5, .. } if left > 0 => {
                        executed[(word.unwrap() & 0xff) as usize] += 1;
                        left -= 1;
                    }
                    Answer::End { number, steps, .. } => {
                        ends[number as usize] += 1;
                        executed[59] += steps.unwrap();
                        break;
                    }
                    _ => break,
                }
            }
        }
    }
    for (opcode, (name, format)) in ROWS.iter().enumerate() {
        let least = if *format == Format::Absent { 0 } else { 20 };
        assert!(executed[opcode] >= least, "{name} was executed {} times", executed[opcode]);
    }
    for (end, runs) in ends.iter().enumerate() {
        assert!(*runs >= 5, "{runs} runs ended {end}");
    }
    let steps: u64 = executed.iter().sum();
    assert!(steps / CASES > 50, "{steps} steps in {CASES} cases");
}

/// What a case has at the edge of a limit.
type Edge = (&'static str, fn(&Case) -> bool);

const EDGES: [Edge; 24] = [
    ("65,536 words", |c| any(c, |i| i.code.len() == 65_536)),
    ("65,537 words", |c| any(c, |i| i.code.len() == 65_537)),
    ("4,096 globals", |c| any(c, |i| i.globals.len() == 4096)),
    ("4,097 globals", |c| any(c, |i| i.globals.len() == 4097)),
    ("256 switches", |c| any(c, |i| i.switches.len() == 256)),
    ("257 switches", |c| any(c, |i| i.switches.len() == 257)),
    ("256 lookups", |c| any(c, |i| i.lookups.len() == 256)),
    ("257 lookups", |c| any(c, |i| i.lookups.len() == 257)),
    ("4,096 targets", |c| any(c, |i| targets(i) == 4096)),
    ("4,097 targets", |c| any(c, |i| targets(i) == 4097)),
    ("4,096 values", |c| any(c, |i| values(i) == 4096)),
    ("4,097 values", |c| any(c, |i| values(i) == 4097)),
    ("no frame", |c| c.lent.frames == 0),
    ("16,384 frames", |c| c.lent.frames == 16_384),
    ("16,385 frames", |c| c.lent.frames == 16_385),
    ("256 pages", |c| c.lent.heap == 256 * PAGE),
    ("257 pages", |c| c.lent.heap == 257 * PAGE),
    ("4,096 slots", |c| c.lent.slots == 4096),
    ("8,192 slots", |c| c.lent.slots == 8192),
    ("base 0", |c| c.lent.base == 0),
    ("a heap that ends at 2^48", |c| c.lent.base.checked_add(c.lent.heap) == Some(1 << 48)),
    ("a heap that ends a page past it", |c| c.lent.base.checked_add(c.lent.heap) == Some((1 << 48) + PAGE)),
    ("no budget", |c| c.calls.iter().any(|call| matches!(call, Call::Run { budget: 0, .. }))),
    ("the largest budget", |c| c.calls.iter().any(|call| matches!(call, Call::Run { budget: 0xffff_ffff, .. }))),
];

fn any(case: &Case, what: fn(&Image) -> bool) -> bool {
    case.images.iter().any(what)
}

fn targets(image: &Image) -> usize {
    image.switches.iter().map(|table| table.targets.len()).sum()
}

fn values(image: &Image) -> usize {
    image.lookups.iter().map(|table| table.values.len()).sum()
}

#[test]
fn every_limit_is_reached() {
    let mut seen = [false; EDGES.len()];
    for number in 0..20_000 {
        let case = generate::case(5, number);
        for (seen, (_, edge)) in seen.iter_mut().zip(EDGES) {
            *seen |= edge(&case);
        }
    }
    let missing: Vec<&str> = EDGES.iter().zip(seen).filter(|(_, seen)| !seen).map(|((what, _), _)| *what).collect();
    assert!(missing.is_empty(), "{missing:?}");
}

/// Special patterns are operands of the four that compute, at times. NaNs of other bits than the machine's own come from nothing that was
/// computed before, and subnormals hardly ever do.
#[test]
fn special_doubles_are_computed_with() {
    let (mut nans, mut subnormals) = (0, 0);
    for number in 0..CASES {
        let case = generate::case(5, number);
        let Ok(mut model) = Model::start(case.lent, &case.images[0]) else { continue };
        // the first image from its beginning, step by step
        for _ in 0..2000 {
            let Some(&word) = case.images[0].code.get(model.state.pc as usize) else { break };
            let [opcode, _, lhs, rhs, ..] = word.to_le_bytes();
            if (op::DAdd..=op::DDiv).contains(&opcode) {
                for bits in [lhs, rhs].map(|r| model.state.regs[r as usize]) {
                    nans += u64::from(f64::from_bits(bits).is_nan() && bits != 0x7ff8_0000_0000_0000);
                    subnormals += u64::from(f64::from_bits(bits).is_subnormal());
                }
            }
            match model.call(&case.images, &Call::Run { image: 0, budget: 1 }) {
                Answer::End { number: 5, .. } => {}
                _ => break,
            }
        }
    }
    assert!(nans >= 20 && subnormals >= 20, "{nans} NaNs, {subnormals} subnormals");
}

/// 'Every host call first gives 10 for the slices it lends': each does, in lists with made-up buffers.
#[test]
fn every_call_is_refused_by_10() {
    let mut refused = [0u64; 6];
    for number in 0..CASES {
        let case = generate::made_up(5, number);
        let mut model = Model::start(case.lent, &case.images[0]).unwrap();
        for call in &case.calls {
            let place = match call {
                Call::Run { .. } => 0,
                Call::Reset => 1,
                Call::Allocate { .. } => 2,
                Call::NewOption(_) => 3,
                Call::Intern(_) => 4,
                Call::InternSmall { .. } => 5,
                // these are lent no buffer
                Call::SetPc(_) | Call::SetRegister { .. } | Call::MakeUp { .. } => {
                    model.call(&case.images, call);
                    continue;
                }
            };
            refused[place] += u64::from(model.call(&case.images, call) == Answer::Refused(10));
        }
    }
    assert!(refused.iter().all(|&n| n >= 20), "{refused:?}");
}
