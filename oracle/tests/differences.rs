//! Where the original and document 01 part, outside the original's conditions: what docs/DIFFERENCES.md says of the original, shown by
//! running it where that does no harm. Each input is the smallest one.
use oracle::generate::program::word;
use oracle::image::Image;
use oracle::machine::{Answer, Call, Lent, Machine};
use oracle::model::Model;
use oracle::model::word::op;
use oracle::original::Original;
use std::panic::{AssertUnwindSafe, catch_unwind};
use std::sync::Mutex;

const B: u64 = 0x20_0000;
const LENT: Lent = Lent { base: B, heap: 4096, frames: 1, slots: 64, spare: 64, fill: 0 };
const HALT: u64 = 59;

static ONE: Mutex<()> = Mutex::new(());

/// The last answer of each machine; `None` where the original panics.
fn both(images: &[Image], calls: &[Call]) -> (Answer, Option<Answer>, Model, Original) {
    let mut model = Model::start(LENT, &Image::default()).unwrap();
    let mut original = Original::lend(LENT).unwrap();
    let ours = calls.iter().map(|call| model.call(images, call)).last().unwrap();
    let theirs = catch_unwind(AssertUnwindSafe(|| calls.iter().map(|call| original.call(images, call)).last().unwrap()));
    (ours, theirs.ok(), model, original)
}

fn run(code: &[u64], globals: &[u64]) -> (Answer, Option<Answer>, Model, Original) {
    let image = Image { code: code.to_vec(), globals: globals.to_vec(), ..Image::default() };
    both(&[image], &[Call::Run { image: 0, budget: 100 }])
}

fn one() -> impl Drop {
    ONE.lock().unwrap_or_else(|e| e.into_inner())
}

#[test]
fn the_quotient_that_overflows_panics() {
    let _one = one();
    for code in [word(op::IDivI, 1, 0, 0, !0), word(op::IModI, 1, 0, 0, !0)] {
        let (ours, theirs, ..) = run(&[word(op::LoadG, 0, 0, 0, 0), code, HALT], &[1 << 63]);
        assert_eq!((ours, theirs), (Answer::End { number: 7, pc: 1, steps: Some(1) }, None));
    }
}

#[test]
#[cfg(target_arch = "x86_64")]
fn a_nan_result_is_the_processors() {
    let _one = one();
    let r1 = |code: &[u64], globals: &[u64]| {
        let (_, _, model, original) = run(code, globals);
        (model.state.regs[1], original.view().regs[1])
    };
    // 0 by 0
    assert_eq!(r1(&[word(op::DDiv, 1, 0, 0, 0), HALT], &[]), (0x7ff8_0000_0000_0000, 0xfff8_0000_0000_0000));
    // a NaN operand comes through, made quiet
    let code = [word(op::LoadG, 0, 0, 0, 0), word(op::DAdd, 1, 0, 0, 0), HALT];
    assert_eq!(r1(&code, &[0x7ff0_0000_0000_0001]), (0x7ff8_0000_0000_0000, 0x7ff8_0000_0000_0001));
}

/// Seven bytes that a program has set where the next header's padding will lie. Rust promises nothing of padding; built here, it is not written.
#[test]
fn the_padding_of_a_header_is_left_as_it_was() {
    let _one = one();
    let code = [
        word(op::LoadG, 0, 0, 0, 0),
        word(op::LoadI, 1, 0, 0, !0),
        word(op::Store, 0, 1, 0, 0),
        word(op::Alloc, 2, 0, 8, 8),
        HALT,
    ];
    let (ours, theirs, model, original) = run(&code, &[B + 40]);
    assert!(theirs.is_some_and(|theirs| ours.agrees(theirs)));
    assert_eq!((model.state.regs[2], original.view().regs[2]), (B + 48, B + 48));
    // size, flags, padding
    assert_eq!(model.heap[32..48], [8, 0, 0, 0, 0, 0, 0, 0, 0, 0, 0, 0, 0, 0, 0, 0]);
    assert_eq!(original.view().heap[32..48], [8, 0, 0, 0, 0, 0, 0, 0, 0, 255, 255, 255, 255, 255, 255, 255]);
}

#[test]
fn an_allocation_that_is_refused_panics() {
    let _one = one();
    let (ours, theirs, ..) = run(&[word(op::Alloc, 0, 0, 1, 4049), HALT], &[]);
    assert_eq!((ours, theirs), (Answer::End { number: 2, pc: 0, steps: Some(0) }, None));
    // of the host's calls, one alone can be asked in another way: `try_alloc`
    for call in [Call::Intern(vec![b'x'; 4041]), Call::Allocate { kind: 0, align: 1, size: 4049 }] {
        let (ours, theirs, ..) = both(&[], std::slice::from_ref(&call));
        let asked = matches!(call, Call::Allocate { .. }).then_some(Answer::Refused(2));
        assert_eq!((ours, theirs), (Answer::Refused(2), asked));
    }
}

fn names(n: u64) -> Vec<Call> {
    (0..n).map(|n| Call::Intern(n.to_string().into_bytes())).collect()
}

#[test]
fn the_table_grows_past_what_is_lent() {
    let _one = one();
    let (ours, theirs, model, original) = both(&[], &names(33));
    assert_eq!(ours, Answer::Refused(18));
    assert!(matches!(theirs, Some(Answer::Value(_))));
    assert_eq!((model.state.active, original.view().slots.len()), (64, 128));
}

#[test]
fn with_heap_and_table_full_it_fails_on_the_heap() {
    let _one = one();
    let mut calls = names(32);
    calls.push(Call::Intern(vec![b'x'; 4041]));
    let (ours, theirs, ..) = both(&[], &calls);
    assert_eq!((ours, theirs), (Answer::Refused(18), None));
}

/// Its padding goes into the hash and not into the name: the table then holds `a` under a hash that is not its own, and `a` is
/// stored again.
#[test]
fn a_small_name_with_padding_is_stored_under_another_hash() {
    let _one = one();
    let padded = Call::InternSmall { len: 1, word: 0x161 };
    let (ours, theirs, ..) = both(&[], std::slice::from_ref(&padded));
    assert_eq!((ours, theirs), (Answer::Refused(17), Some(Answer::Value(B + 48))));
    let (ours, theirs, ..) = both(&[], &[padded, Call::Intern(b"a".to_vec())]);
    assert_eq!((ours, theirs), (Answer::Value(B + 48), Some(Answer::Value(B + 80))));
}

#[test]
fn a_small_name_of_9_bytes_panics() {
    let _one = one();
    let (ours, theirs, ..) = both(&[], &[Call::InternSmall { len: 9, word: 0 }]);
    assert_eq!((ours, theirs), (Answer::Refused(17), None));
}

/// The original has no checks of an image; those that lead it outside its tables are not run here. One that is harmless: a last word
/// that no run reaches.
#[test]
fn an_image_is_not_checked() {
    let _one = one();
    let (ours, theirs, ..) = run(&[HALT, word(op::Nop, 0, 0, 0, 0)], &[]);
    assert_eq!(ours, Answer::Refused(11));
    assert_eq!(theirs, Some(Answer::End { number: 0, pc: 0, steps: None }));
}

/// Budgets are added: the original goes on to its Halt.
#[test]
fn there_is_no_budget() {
    let _one = one();
    let image = Image { code: vec![HALT], ..Image::default() };
    let (ours, theirs, ..) = both(&[image], &[Call::Run { image: 0, budget: 0 }]);
    assert_eq!(ours, Answer::End { number: 5, pc: 0, steps: Some(0) });
    assert_eq!(theirs, Some(Answer::End { number: 0, pc: 0, steps: None }));
}

/// Every payload lies at a multiple of 8, whatever align is asked for.
#[test]
fn an_align_of_16_is_taken_and_not_kept() {
    let _one = one();
    let block = |align| Call::Allocate { kind: 0, align, size: 8 };
    let (ours, theirs, ..) = both(&[], &[block(8), block(16)]);
    assert_eq!((ours, theirs), (Answer::Refused(13), Some(Answer::Value(B + 72))));
}
