//! Document 01's corners, in its order. The numbers here are the paper's; where the original's conditions are kept, it is asked too.
use oracle::anomaly::*;
use oracle::case::Case;
use oracle::compare::{Aside, Counts, Outcome, compare};
use oracle::generate::program::word;
use oracle::image::{Image, Lookup, Switch};
use oracle::machine::{Answer, Call, Lent, Machine};
use oracle::model::word::op;
use oracle::model::{Model, hash, small_hash, small_word};
use oracle::original::Original;
use std::sync::Mutex;

const B: u64 = 0x10_0000;
const LENT: Lent = Lent { base: B, heap: 8 * 4096, frames: 4, slots: 128, spare: 128, fill: 0xee };
const HALT: u64 = 59;
const MINUS_0: u64 = 1 << 63;
const LEAST: u64 = 1 << 63;

/// The original's pages are mapped at B: one test at a time.
static ONE: Mutex<()> = Mutex::new(());

fn side_by_side(case: &Case) -> Outcome {
    let _one = ONE.lock().unwrap_or_else(|e| e.into_inner());
    compare::<Original>(case, &mut Counts::default())
}

fn by_the_model(case: &Case) -> (Vec<Answer>, Model) {
    let mut model = Model::start(case.lent, &case.images[0]).unwrap();
    let answers = case.calls.iter().map(|call| model.call(&case.images, call)).collect();
    (answers, model)
}

/// The answers of a case that keeps the conditions: the original gives the same.
fn same(case: Case) -> (Vec<Answer>, Model) {
    match side_by_side(&case) {
        Outcome::Same => by_the_model(&case),
        Outcome::Aside(why) => panic!("set aside: {why}"),
        Outcome::Differs(what) => panic!("{what}"),
    }
}

/// The answers of a case that the original must not be asked, for this reason.
fn aside(case: Case, why: Aside) -> (Vec<Answer>, Model) {
    assert!(matches!(side_by_side(&case), Outcome::Aside(because) if because == why));
    by_the_model(&case)
}

fn calls(calls: Vec<Call>) -> Case {
    Case { lent: LENT, images: vec![Image::default()], calls }
}

fn program(code: &[u64], globals: &[u64]) -> Case {
    let image = Image { code: code.to_vec(), globals: globals.to_vec(), ..Image::default() };
    Case { lent: LENT, images: vec![image], calls: vec![Call::Run { image: 0, budget: 1000 }] }
}

fn end(number: u8, pc: u64, steps: u64) -> Answer {
    Answer::End { number, pc, steps: Some(steps) }
}

fn intern(name: &str) -> Call {
    Call::Intern(name.as_bytes().to_vec())
}

fn allocate(size: u64) -> Call {
    Call::Allocate { kind: 1, align: 8, size }
}

/// r2 after an instruction over r0 and r1, in both machines.
fn of(opcode: u8, l: u64, r: u64) -> u64 {
    let code = [word(op::LoadG, 0, 0, 0, 0), word(op::LoadG, 1, 0, 0, 1), word(opcode, 2, 0, 1, 0), HALT];
    same(program(&code, &[l, r])).1.state.regs[2]
}

/// r2 after an instruction over r0 alone.
fn cast(opcode: u8, value: u64) -> u64 {
    let code = [word(op::LoadG, 0, 0, 0, 0), word(opcode, 2, 0, 0, 0), HALT];
    same(program(&code, &[value])).1.state.regs[2]
}

// string.rs

#[test]
fn the_empty_string_hashes_to_0() {
    assert_eq!((hash(b""), small_hash(0, 0)), (0, 0));
    assert_eq!(purple_garden_runtime::string::hash(b""), 0);
}

#[test]
fn small_words_are_little_endian() {
    let bytes = *b"abcdefgh";
    assert_eq!(small_word(b"abc"), 0x63_6261);
    for n in 0..=8 {
        let mut padded = [0; 8];
        padded[..n].copy_from_slice(&bytes[..n]);
        assert_eq!(small_word(&bytes[..n]), u64::from_le_bytes(padded));
        assert_eq!(small_word(&bytes[..n]), purple_garden_runtime::string::small_word(&bytes[..n]));
        assert_eq!(hash(&bytes[..n]), small_hash(n as u64, small_word(&bytes[..n])));
        assert_eq!(hash(&bytes[..n]), purple_garden_runtime::string::hash(&bytes[..n]));
    }
}

#[test]
fn the_33rd_name_makes_128_slots() {
    let names = |n: u64| calls((0..n).map(|i| intern(&i.to_string())).collect());
    let active = |n| same(names(n)).1.state.active;
    assert_eq!((active(0), active(1), active(32), active(33)), (0, 64, 64, 128));
    // 'after growth it begins with the old slots, otherwise untouched, as are slots past the active ones'
    let (before, after) = (same(names(32)).1, same(names(33)).1);
    assert_eq!(after.spare[..64], before.slots[..64]);
    assert!(after.spare[64..].iter().chain(&before.slots[64..]).chain(&before.spare).all(|&v| v == 0xeeee_eeee_eeee_eeee));
}

// gc.rs

#[test]
fn a_start_boxes_none() {
    let (answers, model) = same(calls(vec![Call::NewOption(None)]));
    assert_eq!((answers[0], model.state.len, model.state.pushed), (Answer::Value(B + 16), 32, 4096));
    // size 16, kind Option, padding, [0, 0]; 'A page is zeroed as it is pushed'
    let mut page = vec![0; 4096];
    (page[0], page[8]) = (16, 2);
    assert_eq!(model.heap[..4096], page);
    assert!(model.heap[4096..].iter().all(|&b| b == 0xee));
    assert_eq!((model.frames[0], model.frames[1]), (u64::MAX, 0xeeee_eeee_eeee_eeee));
    assert_eq!((model.state.pc, model.state.depth, model.state.regs), (0, 1, [0; 32]));
}

#[test]
fn names_lie_where_the_paper_says() {
    let (answers, model) = same(calls(vec![intern(""), intern("a"), intern("a")]));
    assert_eq!(answers, [Answer::Value(B + 48), Answer::Value(B + 72), Answer::Value(B + 72)]);
    assert_eq!((model.state.len, model.state.names), (81, 2));
    // a block of 9 bytes, kind String; length, hash, `a`
    let mut block = vec![9, 0, 0, 0, 0, 0, 0, 0, 3, 0, 0, 0, 0, 0, 0, 0, 1, 0, 0, 0];
    block.extend(purple_garden_runtime::string::hash(b"a").to_le_bytes());
    block.push(b'a');
    assert_eq!(model.heap[56..81], block);
    // by the small call too
    let small = |len, word| Call::InternSmall { len, word };
    let (answers, _) = same(calls(vec![small(0, 0), small(1, 0x61), intern("a"), intern("")]));
    assert_eq!(answers, [B + 48, B + 72, B + 72, B + 48].map(Answer::Value));
}

#[test]
fn names_are_bytes() {
    let (answers, _) = aside(calls(vec![Call::Intern(vec![0xff])]), Aside::NotUtf8);
    assert_eq!(answers, [Answer::Value(B + 48)]);
}

#[test]
fn the_first_page_holds_4048_more() {
    let (answers, model) = same(calls(vec![allocate(4048)]));
    assert_eq!((answers[0], model.state.pushed, model.state.len), (Answer::Value(B + 48), 4096, 4096));
    let (answers, model) = same(calls(vec![allocate(4049)]));
    assert_eq!((answers[0], model.state.pushed), (Answer::Value(B + 4112), 8192));
}

#[test]
fn grow_adds_24() {
    let pushed = |size| same(calls(vec![allocate(size)])).1.state.pushed - 4096;
    assert_eq!((pushed(4072), pushed(4073)), (4096, 8192));
}

#[test]
fn the_tail_of_an_older_page_is_never_used_again() {
    let (answers, _) = same(calls(vec![allocate(4049), allocate(8)]));
    // page 0 had room for it
    assert_eq!(answers[1], Answer::Value(B + 4096 + 4072 + 16));
}

#[test]
fn an_allocation_is_refused_where_the_heap_has_less_than_grow_asks() {
    let one_page = Lent { heap: 4096, ..LENT };
    let two_pages = Lent { heap: 8192, ..LENT };
    let (answers, model) = same(Case { lent: one_page, ..calls(vec![allocate(4049), allocate(4048)]) });
    assert_eq!(answers, [Answer::Refused(ALLOCATION_FAILED), Answer::Value(B + 48)]);
    assert_eq!(model.state.pushed, 4096);
    // 4,073 would fit a page with its header, and grow asks for two
    let (answers, _) = same(Case { lent: two_pages, ..calls(vec![allocate(4073), allocate(4072), allocate(1)]) });
    let refused = Answer::Refused(ALLOCATION_FAILED);
    assert_eq!(answers, [refused, Answer::Value(B + 4112), refused]);
}

#[test]
fn a_host_allocation_of_any_size_is_answered() {
    let (answers, _) = same(calls(vec![allocate(u64::MAX), allocate(u64::MAX - 23)]));
    assert_eq!(answers, [Answer::Refused(ALLOCATION_FAILED); 2]);
}

// value/mod.rs

#[test]
fn truths() {
    assert_eq!((of(op::BEq, 2, 1), of(op::BEq, 2, 0), of(op::BEq, 0, 0)), (1, 0, 1));
    assert_eq!((cast(op::CastToBool, MINUS_0), cast(op::CastToBool, 0)), (1, 0));
    // 'it compares values'
    assert_eq!((of(op::SEq, 2, 1), of(op::SEq, B, B)), (0, 1));
}

#[test]
fn casts_to_int() {
    let to_int = |d: f64| cast(op::CastToInt, d.to_bits());
    assert_eq!(to_int(f64::NAN), 0);
    assert_eq!(to_int(-0.5), 0);
    assert_eq!(to_int(2f64.powi(63)), i64::MAX as u64);
    assert_eq!(to_int(-(2f64.powi(63))), LEAST);
    assert_eq!(cast(op::CastToInt, 0xc3e0_0000_0000_0001), LEAST);
    assert_eq!(to_int(f64::INFINITY), i64::MAX as u64);
    assert_eq!((to_int(-7.9), to_int(0.99), to_int(1.0)), (-7i64 as u64, 0, 1));
    assert_eq!(cast(op::CastToInt, 0x43df_ffff_ffff_ffff), (1 << 63) - 1024);
}

#[test]
fn casts_to_double() {
    assert_eq!(cast(op::CastToDouble, (1 << 53) + 1), 0x4340_0000_0000_0000);
    assert_eq!(cast(op::CastToDouble, (1 << 53) + 3), 0x4340_0000_0000_0002);
    assert_eq!(cast(op::CastToDouble, u64::MAX), 0xbff0_0000_0000_0000);
    assert_eq!(cast(op::CastToDouble, LEAST), 0xc3e0_0000_0000_0000);
    assert_eq!(cast(op::CastToDouble, i64::MAX as u64), 0x43e0_0000_0000_0000);
    assert_eq!((cast(op::CastToDouble, 0), cast(op::CastToDouble, 1)), (0, 0x3ff0_0000_0000_0000));
}

#[test]
fn one_nan() {
    let zeros = [word(op::DDiv, 2, 0, 1, 0), HALT];
    let (_, model) = aside(program(&zeros, &[]), Aside::Nan);
    assert_eq!(model.state.regs[2], 0x7ff8_0000_0000_0000);
    // an operand's NaN is replaced as well; Mov and LoadG keep it
    let code = [word(op::LoadG, 0, 0, 0, 0), word(op::DAdd, 2, 0, 1, 0), word(op::Mov, 3, 0, 0, 0), HALT];
    let (_, model) = aside(program(&code, &[0xfff0_0000_0000_0001]), Aside::Nan);
    assert_eq!(model.state.regs[2..4], [0x7ff8_0000_0000_0000, 0xfff0_0000_0000_0001]);
    let nan = f64::NAN.to_bits();
    assert_eq!((of(op::DLt, nan, 0), of(op::DGt, nan, 0), of(op::DLt, MINUS_0, 0)), (0, 0, 0));
}

#[test]
fn doubles_are_rounded_once() {
    let d = |x: f64| x.to_bits();
    assert_eq!(of(op::DAdd, d(0.1), d(0.2)), 0x3fd3_3333_3333_3334);
    assert_eq!(of(op::DSub, d(1.0), d(3.0)), d(-2.0));
    assert_eq!(of(op::DMul, d(-0.0), d(2.0)), MINUS_0);
    assert_eq!(of(op::DDiv, d(1.0), d(0.0)), d(f64::INFINITY));
    assert_eq!((of(op::DLt, d(1.0), d(2.0)), of(op::DGt, d(1.0), d(2.0))), (1, 0));
}

// vm.rs

#[test]
fn quotients_go_toward_zero() {
    let minus_7 = -7i64 as u64;
    assert_eq!((of(op::IDiv, minus_7, 2), of(op::IMod, minus_7, 2)), (-3i64 as u64, u64::MAX));
    assert_eq!((of(op::IDiv, 7, -2i64 as u64), of(op::IMod, 7, -2i64 as u64)), (-3i64 as u64, 1));
    let by_2 = [word(op::LoadI, 0, 0, 0, -7i32 as u32), word(op::IDivI, 1, 0, 0, 2), word(op::IModI, 2, 0, 0, 2), HALT];
    assert_eq!(same(program(&by_2, &[])).1.state.regs[1..3], [-3i64 as u64, u64::MAX]);
}

#[test]
fn sums_and_products_keep_the_low_64_bits() {
    assert_eq!(of(op::IAdd, u64::MAX, 2), 1);
    assert_eq!(of(op::ISub, 1, 2), u64::MAX);
    assert_eq!(of(op::IMul, 0x1_0000_0001, 0x1_0000_0001), 0x2_0000_0001);
    assert_eq!(of(op::IMul, LEAST, u64::MAX), LEAST);
}

#[test]
fn immediates_are_signed() {
    let imm = |opcode, value, imm: i32| {
        let code = [word(op::LoadG, 0, 0, 0, 0), word(opcode, 2, 0, 0, imm as u32), HALT];
        same(program(&code, &[value])).1.state.regs[2]
    };
    assert_eq!((imm(op::IAddI, 1, -1), imm(op::ISubI, 1, -1), imm(op::IMulI, 3, -1)), (0, 2, -3i64 as u64));
    assert_eq!(imm(op::IAndI, u64::MAX, -2), u64::MAX - 1);
    assert_eq!((imm(op::IEqI, u64::MAX, -1), imm(op::ILtI, LEAST, -1), imm(op::IGtI, 0, -1)), (1, 1, 1));
    assert_eq!((of(op::ILt, LEAST, 0), of(op::IGt, LEAST, 0), of(op::IEq, 5, 5)), (1, 0, 1));
    assert_eq!((of(op::IAnd, 12, 10), of(op::IAnd, LEAST, u64::MAX)), (8, LEAST));
}

#[test]
fn the_one_overflow_and_the_zero_divisor() {
    for opcode in [op::IDiv, op::IMod] {
        let code = [word(op::LoadG, 0, 0, 0, 0), word(op::LoadG, 1, 0, 0, 1), word(opcode, 2, 0, 1, 0), HALT];
        let (answers, model) = aside(program(&code, &[LEAST, u64::MAX]), Aside::End(QUOTIENT_OVERFLOW));
        assert_eq!((answers[0], model.state.regs[2], model.state.pc), (end(7, 2, 2), 0, 0));
        let (answers, model) = same(program(&code, &[LEAST, 0]));
        assert_eq!((answers[0], model.state.pc), (end(1, 2, 2), 0));
    }
    for opcode in [op::IDivI, op::IModI] {
        let code = |imm: i32| [word(op::LoadG, 0, 0, 0, 0), word(opcode, 2, 0, 0, imm as u32), HALT];
        assert_eq!(aside(program(&code(-1), &[LEAST]), Aside::End(7)).0[0], end(7, 1, 1));
        assert_eq!(same(program(&code(0), &[LEAST])).0[0], end(1, 1, 1));
    }
}

/// r1 counts what is done from the slot's target on: slot n leads to the last n words.
fn switched(kind: u64, subject: u64, first: u64, slots: u64) -> u64 {
    let mut code = vec![word(op::LoadG, 0, 0, 0, 0), word(op::Switch, kind, 0, 0, 0), word(op::LoadI, 1, 0, 0, 100), HALT];
    code.extend([word(op::IAddI, 1, 1, 0, 1); 8]);
    code.push(HALT);
    let last = code.len() as u64 - 1;
    let targets = (0..slots).map(|slot| last - slot).collect();
    let mut case = program(&code, &[subject]);
    case.images[0].switches = vec![Switch { first, targets }];
    same(case).1.state.regs[1]
}

fn looked_up(kind: u64, subject: u64, first: u64, slots: u64) -> u64 {
    let code = [word(op::LoadG, 0, 0, 0, 0), word(op::Lookup, 1, 0, kind, 0), HALT];
    let mut case = program(&code, &[subject]);
    case.images[0].lookups = vec![Lookup { first, default: 100, values: (0..slots).collect() }];
    same(case).1.state.regs[1]
}

#[test]
fn tables() {
    for by in [switched, looked_up] {
        assert_eq!(by(0, B + 72, B + 48, 8), 6);
        assert_eq!(by(0, B + 50, B + 48, 8), 0);
        assert_eq!((by(1, 7, 5, 3), by(1, 8, 5, 3)), (2, 100));
        // 100 stands for falling through and for the default
        assert_eq!((by(1, 4, 5, 3), by(0, B + 47, B + 48, 8), by(1, 0, 0, 0)), (100, 100, 100));
        assert_eq!(by(1, 1, u64::MAX, 3), 2);
    }
}

#[test]
fn call_at_depth_1_with_one_frame() {
    let lent = Lent { frames: 1, ..LENT };
    let (answers, model) = same(Case { lent, ..program(&[word(op::Call, 0, 0, 0, 1), HALT], &[]) });
    assert_eq!((answers[0], model.state.depth, model.state.pc), (end(3, 0, 0), 1, 0));
}

#[test]
fn ret_from_the_root() {
    let code = [word(op::Ret, 0, 0, 0, 0), word(op::Nop, 0, 0, 0, 0), HALT];
    let (answers, model) = same(program(&code, &[]));
    assert_eq!((answers[0], model.state.depth, model.state.pc), (end(0, 2, 2), 0, 2));
    let mut again = program(&code, &[]);
    again.calls.extend([Call::SetPc(0), Call::Run { image: 0, budget: 9 }]);
    let (answers, model) = aside(again, Aside::End(FRAME_UNDERFLOW));
    assert_eq!((answers[2], model.state.depth, model.state.pc), (end(8, 0, 0), 0, 0));
}

/// At depth 0 a `Call` takes frame 0, and its `Ret` gives it back.
#[test]
fn call_at_depth_0() {
    let code = [word(op::Ret, 0, 0, 0, 0), word(op::Call, 0, 0, 0, 3), HALT, word(op::Ret, 0, 0, 0, 0), HALT];
    let mut case = program(&code, &[]);
    case.calls.extend([Call::SetPc(1), Call::Run { image: 0, budget: 9 }]);
    let (answers, model) = same(case);
    assert_eq!((answers[0], answers[2]), (end(0, 4, 2), end(0, 2, 3)));
    assert_eq!((model.state.depth, model.frames[0]), (0, 1));
}

#[test]
fn call_and_tail() {
    // 0: Call 3; 1: LoadI r2; 2: Halt; 3: Tail 5; 4: Nop; 5: LoadI r1; 6: Ret; 7: Halt
    let code = [
        word(op::Call, 0, 0, 0, 3),
        word(op::LoadI, 2, 0, 0, 22),
        HALT,
        word(op::Tail, 0, 0, 0, 5),
        word(op::Nop, 0, 0, 0, 0),
        word(op::LoadI, 1, 0, 0, 11),
        word(op::Ret, 0, 0, 0, 0),
        HALT,
    ];
    let (answers, model) = same(program(&code, &[]));
    assert_eq!((answers[0], model.state.depth, &model.state.regs[1..3]), (end(0, 2, 6), 1, &[11, 22][..]));
    assert_eq!(model.frames[..2], [6, 0]);
}

#[test]
fn frame_0_of_a_run() {
    let frame_0 = |case: Case| same(case).1.frames[0];
    assert_eq!(frame_0(program(&[HALT], &[])), u64::MAX);
    assert_eq!(frame_0(program(&[word(op::Nop, 0, 0, 0, 0), HALT], &[])), 0);
    // 'even if pc is past the end; then it returns 0 with no step'
    let mut past = program(&[HALT, HALT, HALT], &[]);
    past.calls.insert(0, Call::SetPc(3));
    let (answers, model) = same(past);
    assert_eq!((answers[1], model.frames[0]), (end(0, 3, 0), 1));
    // 'Empty code returns 0 and writes nothing'
    let mut empty = program(&[], &[]);
    empty.calls.insert(0, Call::SetPc(77));
    let (answers, model) = same(empty);
    assert_eq!((answers[1], model.frames[0]), (end(0, 77, 0), u64::MAX));
}

#[test]
fn budgets() {
    let nop = word(op::Nop, 0, 0, 0, 0);
    let with = |budget| Case { calls: vec![Call::Run { image: 0, budget }], ..program(&[nop, nop, HALT], &[]) };
    let (answers, model) = aside(with(0), Aside::End(BUDGET));
    assert_eq!((answers[0], model.state.pc, model.frames[0]), (end(5, 0, 0), 0, 1));
    let (answers, model) = aside(with(2), Aside::End(BUDGET));
    assert_eq!((answers[0], model.state.pc), (end(5, 2, 2), 2));
    let (answers, model) = same(with(3));
    assert_eq!((answers[0], model.state.pc), (end(0, 2, 3), 2));
    // budget 0 where there is nothing to run
    assert_eq!(same(Case { calls: vec![Call::Run { image: 0, budget: 0 }], ..program(&[], &[]) }).0[0], end(0, 0, 0));
    // spent before an instruction that would fail
    let failing =
        Case { calls: vec![Call::Run { image: 0, budget: 1 }], ..program(&[nop, word(op::Assert, 0, 0, 0, 0), HALT], &[]) };
    assert_eq!(aside(failing, Aside::End(BUDGET)).0[0], end(5, 1, 1));
}

#[test]
fn assert_and_the_stored_pc() {
    let code = [word(op::Nop, 0, 0, 0, 0), word(op::LoadI, 1, 0, 0, 5), word(op::Assert, 0, 0, 0, 0), HALT];
    let mut case = program(&code, &[]);
    case.calls.insert(0, Call::SetPc(1));
    let (answers, model) = same(case);
    assert_eq!((answers[1], model.state.pc, model.state.regs[1]), (end(4, 2, 1), 1, 5));
    assert_eq!(same(program(&[word(op::LoadI, 0, 0, 0, 2), word(op::Assert, 0, 0, 0, 0), HALT], &[])).0[0], end(0, 2, 3));
}

#[test]
fn reset_keeps_registers_heap_and_names() {
    let mut case = program(&[word(op::Ret, 0, 0, 0, 0), HALT], &[]);
    case.calls.insert(0, intern("gold"));
    case.calls.extend([Call::SetRegister { register: 31, value: 9 }, Call::Reset, Call::Run { image: 0, budget: 9 }]);
    let (answers, model) = same(case);
    assert_eq!(answers[4], end(0, u64::MAX, 0));
    assert_eq!((model.state.pc, model.state.depth, model.state.regs[31], model.state.names), (u64::MAX, 1, 9, 1));
    assert_eq!(same(calls(vec![Call::Reset])).1.frames[0], u64::MAX);
}

#[test]
fn options() {
    let (answers, model) = same(calls(vec![Call::NewOption(Some(7)), Call::NewOption(Some(7)), Call::NewOption(None)]));
    assert_eq!(answers, [B + 48, B + 80, B + 16].map(Answer::Value));
    let word_at = |at: usize| u64::from_le_bytes(model.heap[at..at + 8].try_into().unwrap());
    assert_eq!([32, 40, 48, 56].map(word_at), [16, 2, 1, 7]);
}

#[test]
fn jumps() {
    // r1 is 1 where the jump was taken
    let taken = |jump: u64, globals: &[u64]| {
        let code = [
            word(op::LoadG, 0, 0, 0, 0),
            word(op::LoadG, 2, 0, 0, 1),
            jump | 5 << 16,
            HALT,
            HALT,
            word(op::LoadI, 1, 0, 0, 1),
            HALT,
        ];
        same(program(&code, globals)).1.state.regs[1]
    };
    let j = |opcode, high| word(opcode, 0, 0, 0, high);
    assert_eq!((taken(j(op::JmpT, 0), &[2, 0]), taken(j(op::JmpT, 0), &[0, 0])), (1, 0));
    assert_eq!((taken(j(op::JmpF, 0), &[2, 0]), taken(j(op::JmpF, 0), &[0, 0])), (0, 1));
    assert_eq!((taken(j(op::JmpEqI, !0), &[!0, 0]), taken(j(op::JmpNeI, !0), &[!0, 0])), (1, 0));
    assert_eq!((taken(j(op::JmpSEq, 2), &[B, B]), taken(j(op::JmpSNe, 2), &[B, B])), (1, 0));
    assert_eq!((taken(j(op::JmpSEq, 2), &[B, B + 4]), taken(j(op::JmpSNe, 2), &[B, B + 4])), (0, 1));
    assert_eq!(taken(word(op::Jmp, 0, 0, 0, 0), &[0, 0]), 1);
}

// 'What is carried': Load and Store

/// A program with r0 = `base`: what a Load at `offset` answers.
fn loaded(base: u64, offset: u32) -> Answer {
    let code = [word(op::LoadG, 0, 0, 0, 0), word(op::Load, 1, 0, 0, offset), HALT];
    by_the_model(&program(&code, &[base])).0[0]
}

#[test]
fn addresses() {
    let (fine, six) = (end(0, 2, 3), end(6, 1, 1));
    // inside pushed pages: headers and tails too
    assert_eq!((loaded(B, 0), loaded(B + 4088, 0), loaded(B + 1, 7)), (fine, fine, fine));
    // bounded by pushed pages, not by the lent heap; the sum is what must be a multiple of 8
    assert_eq!((loaded(B + 4088, 8), loaded(B, 4089), loaded(B, 4)), (six, six, six));
    assert_eq!((loaded(B - 8, 0), loaded(0, 0)), (six, six));
    // 'an unwrapped sum'
    assert_eq!(loaded(u64::MAX - 7, B as u32 + 8), six);
    let stopped = program(&[word(op::Nop, 0, 0, 0, 0), word(op::Load, 1, 0, 0, 0), HALT], &[]);
    let (answers, model) = aside(stopped, Aside::End(BAD_ADDRESS));
    assert_eq!((answers[0], model.state.pc), (six, 0));
    // '`AddrOf` wraps and checks nothing'
    let code = [word(op::LoadG, 0, 0, 0, 0), word(op::AddrOf, 1, 0, 0, 9), HALT];
    let (answers, model) = aside(program(&code, &[u64::MAX]), Aside::OutsideBlock);
    assert_eq!((answers[0], model.state.regs[1]), (fine, 8));
}

#[test]
fn blocks_and_the_conditions() {
    // a block of 12 bytes: 8 can be reached, 8 more cannot without leaving it
    let at = |offset| [word(op::Alloc, 0, 1, 8, 12), word(op::Store, 0, 0, 0, offset), word(op::Load, 1, 0, 0, offset), HALT];
    let (answers, model) = same(program(&at(0), &[]));
    assert_eq!((answers[0], model.state.regs[..2].to_vec()), (end(0, 3, 4), vec![B + 48, B + 48]));
    aside(program(&at(8), &[]), Aside::OutsideBlock);
    // AddrOf may reach a block's end, and no further
    let to = |offset| [word(op::Alloc, 0, 1, 8, 12), word(op::AddrOf, 1, 0, 0, offset), HALT];
    assert_eq!(same(program(&to(12), &[])).1.state.regs[1], B + 60);
    aside(program(&to(13), &[]), Aside::OutsideBlock);
    // 'string payloads are written only from strings'
    let mut over =
        program(&[word(op::LoadG, 0, 0, 0, 0), word(op::Load, 1, 0, 0, 0), word(op::Store, 0, 1, 0, 0), HALT], &[B + 48]);
    over.calls.insert(0, intern("gold"));
    aside(over, Aside::NamePayload);
}

#[test]
fn an_allocation_refused_in_a_run() {
    let code = [word(op::LoadI, 0, 0, 0, 3), word(op::Alloc, 0, 1, 8, 40_000), HALT];
    let (answers, model) = aside(program(&code, &[]), Aside::End(ALLOCATION_FAILED));
    assert_eq!((answers[0], model.state.pushed, model.state.regs[0], model.state.pc), (end(2, 1, 1), 4096, 3, 0));
}

/// What a program left in a tail shows through: 'A page is zeroed as it is pushed', a payload is not.
#[test]
fn a_payload_is_not_zeroed() {
    let code = [
        word(op::LoadG, 0, 0, 0, 0),
        word(op::LoadG, 2, 0, 0, 1),
        word(op::Store, 0, 2, 0, 0),
        word(op::Alloc, 1, 1, 8, 8),
        word(op::Load, 3, 1, 0, 0),
        HALT,
    ];
    let (_, model) = aside(program(&code, &[B + 48, 99]), Aside::OutsideBlock);
    assert_eq!(model.state.regs[3], 99);
    // the header's padding is written as zero
    let header = [B + 40, u64::MAX];
    let (_, model) = aside(program(&code, &header), Aside::OutsideBlock);
    assert_eq!(model.heap[40..48], [1, 0, 0, 0, 0, 0, 0, 0]);
}
