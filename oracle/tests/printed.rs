//! What the programs host_calls, known_answers, examples/c/rate.c and load.c print, worked out again: by the model, and by the original
//! wherever it can be asked. Their stored outputs must be that.
use oracle::compare::{Ask, Compared};
use oracle::generate::program::word;
use oracle::image::{Image, Switch};
use oracle::machine::{Answer, Call, Field, InWords, Lent, Machine};
use oracle::model::word::{Counts, op, refusal};
use oracle::model::{self, Model};
use oracle::original::Original;
use oracle::words;
use purple_garden_runtime::Value;
use purple_garden_runtime::string::{self, StrTable};
use std::fmt::Write;
use std::path::PathBuf;
use std::sync::Mutex;

const BASE: u64 = 65536;
const LENT: Lent = Lent { base: BASE, heap: 8192, frames: 4, slots: 64, spare: 64, fill: 0 };

static ONE: Mutex<()> = Mutex::new(());

/// The original's heap lies at the base itself: one machine at a time.
fn one() -> impl Drop {
    ONE.lock().unwrap_or_else(|e| e.into_inner())
}

fn stored(path: &str) -> String {
    let path = PathBuf::from(env!("CARGO_MANIFEST_DIR")).join("..").join(path);
    std::fs::read_to_string(&path).unwrap_or_else(|error| panic!("{}: {error}", path.display()))
}

/// The model, and beside it the original until a run is outside its conditions.
struct Both {
    model: Model,
    original: Option<Original>,
    /// calls that both answered
    agreed: usize,
}

impl Both {
    fn start() -> Self {
        let model = Model::start(LENT, &Image::default()).expect("a start");
        Both { model, original: Some(Original::lend(LENT).expect("the heap's addresses")), agreed: 0 }
    }

    fn call(&mut self, images: &[Image], call: &Call) -> Answer {
        let answer = self.model.call(images, call);
        match Original::asked(call, answer, &self.model) {
            Ask::Make => {
                if let Some(original) = &mut self.original {
                    let theirs = original.call(images, call);
                    assert!(answer.agrees(theirs), "{call:?}: {answer:?} and {theirs:?}");
                    assert_eq!(self.model.view().regs, original.view().regs, "{call:?}");
                    self.agreed += 1;
                }
            }
            Ask::PassOver => {}
            Ask::SetAside(_) => self.original = None,
        }
        answer
    }

    fn run(&mut self, code: &[u64], budget: u64) -> Answer {
        self.call(&[image(code)], &Call::Run { image: 0, budget })
    }
}

fn image(code: &[u64]) -> Image {
    Image { code: code.to_vec(), ..Image::default() }
}

/// As crates/host_calls prints an answer.
fn said(out: &mut String, label: &str, answer: Answer) {
    match answer {
        Answer::Value(v) => writeln!(out, "{label}: value {v:016x}"),
        Answer::Done => writeln!(out, "{label}: done"),
        Answer::Refused(number) => writeln!(out, "{label}: refused {number:02x}"),
        Answer::End { number, pc, steps } => writeln!(out, "{label}: end {number:02x} at {pc:016x} after {:08x}", steps.unwrap()),
    }
    .unwrap();
}

fn registers(out: &mut String, model: &Model) {
    let s = &model.state;
    writeln!(out, "  r0 {:016x}, r1 {:016x}, pc {:016x}, depth {:04x}", s.regs[0], s.regs[1], s.pc, s.depth).unwrap();
}

#[test]
fn host_calls() {
    let _one = one();
    let mut out = String::new();
    let refused = Model::start(Lent { base: 100, ..LENT }, &image(&[59])).err().expect("no page's address");
    said(&mut out, "start at no page's address", Answer::Refused(refused));
    let mut both = Both::start();
    said(&mut out, "start", Answer::Done);
    registers(&mut out, &both.model);
    said(&mut out, "set register 32", both.call(&[], &Call::SetRegister { register: 32, value: 1 }));

    // LoadI r0, 7; IAddI r1, r0, -1; Halt
    let code = [0x0000_0007_0000_001b, 0xffff_ffff_0000_0101, 59];
    said(&mut out, "run", both.run(&code, 10));
    registers(&mut out, &both.model);
    said(&mut out, "run from the Halt on", both.run(&code, 10));
    assert_eq!(both.agreed, 2);
    both.call(&[], &Call::SetPc(0));
    said(&mut out, "run with budget 0", both.run(&code, 0));
    both.call(&[], &Call::SetRegister { register: 0, value: 1 });
    said(&mut out, "run with budget 2", both.run(&code, 2));
    registers(&mut out, &both.model);
    // 5 is the model's alone: both go on from a start, with the registers that it left
    let left = both.model.state.regs;
    drop(both.original);
    let mut both = Both::start();
    for (register, &value) in left.iter().enumerate() {
        both.call(&[], &Call::SetRegister { register: register as u64, value });
    }
    both.call(&[], &Call::SetPc(0));
    // IDiv r1, r0, r2; Halt
    said(&mut out, "run that divides by zero", both.run(&[0x0000_0000_0200_0106, 59], 10));
    registers(&mut out, &both.model);
    said(&mut out, "reset", both.call(&[], &Call::Reset));
    registers(&mut out, &both.model);
    said(&mut out, "run after reset", both.run(&code, 10));
    assert_eq!(both.agreed, 32 + 4);

    // Ret; Halt. 8 is the model's alone, and what follows goes on from before
    let reset = both.model.clone();
    both.call(&[], &Call::SetPc(0));
    said(&mut out, "run that returns from the root", both.run(&[57, 59], 10));
    registers(&mut out, &both.model);
    assert_eq!(both.agreed, 32 + 4 + 2);
    both.call(&[], &Call::SetPc(0));
    said(&mut out, "run that returns at depth 0", both.run(&[57, 59], 10));
    registers(&mut out, &both.model);
    assert!(both.original.is_none());

    let refused = |out: &mut String, label: &str, change: &dyn Fn(&mut Model), image: Image| {
        let mut model = reset.clone();
        change(&mut model);
        said(out, label, model.call(&[image], &Call::Run { image: 0, budget: 1 }));
    };
    let deep = |m: &mut Model| {
        m.call(&[], &Call::MakeUp { field: Field::Depth, value: 5 });
    };
    refused(&mut out, "run at a depth above the frames", &deep, image(&[59]));
    refused(&mut out, "run with no heap", &|m| m.heap.clear(), image(&[59]));
    refused(&mut out, "run of code without a Halt", &|_| (), image(&[60]));
    refused(&mut out, "run of an opcode that is not carried", &|_| (), image(&[42, 59]));
    refused(&mut out, "run of a word with register 32", &|_| (), image(&[0x201a, 59]));
    refused(&mut out, "run of a jump past the code", &|_| (), image(&[0x0002_001d, 59]));
    refused(&mut out, "run of a global that is not there", &|_| (), image(&[0x1c, 59]));
    let table = Image { switches: vec![Switch { first: 1, targets: vec![1] }], ..image(&[59]) };
    refused(&mut out, "run with a table's target past the code", &|_| (), table);

    // no run has touched the heap, so both go on from a start
    let ran = both.model;
    drop(both.original);
    let mut both = Both::start();
    assert_eq!(ran.heap, both.model.heap);
    said(&mut out, "allocate 40 bytes", both.call(&[], &Call::Allocate { kind: 1, align: 8, size: 40 }));
    said(&mut out, "allocate with an alignment of 3", both.call(&[], &Call::Allocate { kind: 1, align: 3, size: 40 }));
    said(&mut out, "allocate 2^20 bytes", both.call(&[], &Call::Allocate { kind: 1, align: 8, size: 1 << 20 }));
    said(&mut out, "option of 5", both.call(&[], &Call::NewOption(Some(5))));
    said(&mut out, "option of none", both.call(&[], &Call::NewOption(None)));
    said(&mut out, "intern nothing", both.call(&[], &Call::Intern(Vec::new())));
    said(&mut out, "intern gold", both.call(&[], &Call::Intern(b"gold".to_vec())));
    said(&mut out, "intern gold again", both.call(&[], &Call::Intern(b"gold".to_vec())));
    said(&mut out, "intern gold as a word", both.call(&[], &Call::InternSmall { len: 4, word: 0x646c_6f67 }));
    said(&mut out, "intern 9 bytes as a word", both.call(&[], &Call::InternSmall { len: 9, word: 0 }));
    for word in 1..31 {
        both.call(&[], &Call::InternSmall { len: 1, word });
    }
    said(&mut out, "intern the 32nd name", both.call(&[], &Call::InternSmall { len: 1, word: 30 }));
    said(&mut out, "intern the 33rd name", both.call(&[], &Call::InternSmall { len: 1, word: 31 }));
    // all of them but the three that are refused by 13, 17 and 18
    assert_eq!(both.agreed, 39);
    assert_eq!(out, stored("crates/host_calls/stdout"));
}

/// What an instruction of two registers gives, or the number that it ends the run with.
fn computed(opcode: u8, lhs: i64, rhs: i64) -> u64 {
    let mut both = Both::start();
    for (register, value) in [(0, lhs), (1, rhs)] {
        both.call(&[], &Call::SetRegister { register, value: value as u64 });
    }
    let Answer::End { number, .. } = both.run(&[word(opcode, 2, 0, 1, 0), 59], 10) else { panic!("a run") };
    assert_eq!(both.agreed, if number == 7 { 2 } else { 3 });
    if number == 0 { both.model.state.regs[2] } else { number.into() }
}

#[test]
fn known_answers() {
    let _one = one();
    let mut out = String::new();
    let mut line = |label: &str, n: u64| writeln!(out, "{label} {n:016x}").unwrap();
    // string.rs, unchanged
    line("hash of nothing", string::hash(b"").into());
    line("hash of a", string::hash(b"a").into());
    line("hash of abcdefgh", string::hash(b"abcdefgh").into());
    line("hash of 0123456789", string::hash(b"0123456789").into());
    line("small hash of nothing", string::small_hash(0, 0).into());
    line("small hash of a", string::small_hash(1, 97).into());
    // by the original but for the overflow, which panics there
    line("-7 by 2", computed(op::IDiv, -7, 2));
    line("-7 by 2, rest", computed(op::IMod, -7, 2));
    line("7 by 0", computed(op::IDiv, 7, 0));
    line("-2^63 by -1", computed(op::IDiv, i64::MIN, -1));
    line("(2^63 + 1) squared", computed(op::IMul, i64::MIN + 1, i64::MIN + 1));
    // value/mod.rs, unchanged
    line("2^53 + 1 to double", Value((1 << 53) + 1).int_to_f64().0);
    line("2^53 + 3 to double", Value((1 << 53) + 3).int_to_f64().0);
    line("NaN to int", Value(f64::NAN.to_bits()).f64_to_int().0);
    line("-0.5 to int", Value((-0.5_f64).to_bits()).f64_to_int().0);
    line("2^63 to int", Value((2.0_f64).powi(63).to_bits()).f64_to_int().0);
    line("-2^63 to int", Value((-(2.0_f64).powi(63)).to_bits()).f64_to_int().0);
    line("-0.0 to bool", Value((-0.0_f64).to_bits()).int_to_bool().0);
    line("0.1 + 0.2", (0.1_f64 + 0.2).to_bits());
    // one NaN: the paper's
    line("0.0 / 0.0", model::value::double(0, 0, |l, r| l / r));
    for (label, size) in
        [("block of 4048", 4048), ("block of 4049", 4049), ("block of 4073", 4073), ("block of 2^64 - 1", u64::MAX)]
    {
        let mut both = Both::start();
        match both.call(&[], &Call::Allocate { kind: 0, align: 8, size }) {
            Answer::Value(at) => line(label, at),
            Answer::Refused(number) => line(label, number.into()),
            other => panic!("{other:?}"),
        }
        assert_eq!(both.agreed, usize::from(size != u64::MAX));
    }
    // a table of string.rs that holds `a` alone, stored at 65,584 there
    let mut payload = [0_u64; 2];
    let mut table = StrTable::default();
    // SAFETY: 8 bytes of header and one of the name fit, and it is not in the table yet
    unsafe {
        let a = string::write_payload(payload.as_mut_ptr().cast(), "a", string::hash(b"a"));
        table.insert(a);
    }
    for name in ["a", "b", "aa"] {
        let found = table.get(name, string::hash(name.as_bytes()));
        line(&format!("{name} is at"), if found.is_some() { 65584 } else { 0 });
    }
    // what is refused of a word by itself
    let any = Counts { code: u64::MAX, globals: u64::MAX, switches: u64::MAX, lookups: u64::MAX };
    for (label, of) in [
        ("LoadI r0, 7", 0x0000_0007_0000_001b),
        ("Halt", 0x3b),
        ("Sys", 0x28),
        ("Halt with a byte set", 0x013b),
        ("register 32", 0x2000),
        ("an align of 16", 0x0000_0020_1003_0435),
    ] {
        line(label, refusal(of, any).unwrap_or(0).into());
    }
    assert_eq!(out, stored("crates/known_answers/stdout"));
}

#[test]
fn the_example_in_c() {
    let _one = one();
    // the words as they stand in the example
    let source = stored("examples/c/rate.c");
    let words = source.split("0x").skip(1).filter_map(|rest| rest.get(..16));
    let code: Vec<u64> = words.filter_map(|digits| u64::from_str_radix(digits, 16).ok()).collect();
    assert_eq!(code.len(), 5);
    let mut both = Both::start();
    let intern = |both: &mut Both, name: &str| match both.call(&[], &Call::Intern(name.into())) {
        Answer::Value(value) => value,
        other => panic!("{other:?}"),
    };
    let image = Image { globals: vec![intern(&mut both, "gold")], ..image(&code) };
    let mut out = String::new();
    for (cents, tier) in [(1250, "gold"), (1250, "silver")] {
        let value = intern(&mut both, tier);
        both.call(&[], &Call::Reset);
        both.call(&[], &Call::SetPc(0));
        both.call(&[], &Call::SetRegister { register: 0, value: cents });
        both.call(&[], &Call::SetRegister { register: 1, value });
        let answer = both.call(std::slice::from_ref(&image), &Call::Run { image: 0, budget: 100 });
        let Answer::End { number: 0, pc, steps: Some(steps) } = answer else { panic!("{answer:?}") };
        let points = both.model.state.regs[2];
        writeln!(out, "{cents} cents at {tier} ({value:x}h): {points} points, pc {pc}, {steps} steps").unwrap();
    }
    assert_eq!(both.agreed, 13);
    assert_eq!(out, stored("examples/c/rate.stdout"));
}

/// Of a file's bytes, lowest first.
fn words_of(file: &[u8]) -> Vec<u64> {
    file.chunks_exact(8).map(|bytes| u64::from_le_bytes(bytes.try_into().unwrap())).collect()
}

#[test]
fn the_example_that_loads_words() {
    let _one = one();
    let file = std::fs::read(PathBuf::from(env!("CARGO_MANIFEST_DIR")).join("../examples/points_by_tier.words")).unwrap();
    let mut image = words::read(&words_of(&file)).unwrap();
    let mut out = format!("{} words, {} of them code\n", file.len() / 8, image.code.len());
    let mut both = Both::start();
    let intern = |both: &mut Both, name: &str| match both.call(&[], &Call::Intern(name.into())) {
        Answer::Value(value) => value,
        other => panic!("{other:?}"),
    };
    for (global, name) in ["bronze", "silver", "gold"].into_iter().enumerate() {
        image.globals[global] = intern(&mut both, name);
    }
    for tier in ["silver", "gold"] {
        image.globals[3] = intern(&mut both, tier);
        both.call(&[], &Call::Reset);
        both.call(&[], &Call::SetPc(0));
        let answer = both.call(std::slice::from_ref(&image), &Call::Run { image: 0, budget: 100 });
        let Answer::End { number, pc, steps: Some(steps) } = answer else { panic!("{answer:?}") };
        writeln!(out, "{tier}: end {number} at {pc} after {steps} steps, {} points", both.model.state.regs[0]).unwrap();
    }
    assert_eq!(both.agreed, 11);
    // so many bytes, one of them another
    let whole = file.len();
    let (code, code_end, globals_end) = (9 * 8, (9 + 13) * 8, (9 + 13 + 5) * 8);
    for (what, count, at, byte) in [
        ("whole", whole, 0, file[0]),
        ("nothing", 0, 0, file[0]),
        ("cut behind its ends", code, 0, file[0]),
        ("cut by its last word", whole - 8, 0, file[0]),
        ("cut inside a word", whole - 3, 0, file[0]),
        ("the code's end one less", whole, 0, file[0] - 1),
        ("the code's end 2^56 more", whole, 7, 1),
        ("the last Halt a Nop", whole, code_end - 8, op::Nop),
        ("an opcode that is none", whole, code, 255),
        ("a register that is none", whole, code + 1, 32),
        ("a global past the last one", whole, code + 4, 5),
        ("a table's target past the code", whole, globals_end + 16, 13),
    ] {
        let mut damaged = file.clone();
        damaged[at] = byte;
        if count % 8 != 0 {
            writeln!(out, "{what}: {count} bytes are no words").unwrap();
            continue;
        }
        let number = Model::start_on(LENT, &words_of(&damaged[..count])).err().unwrap_or(0);
        writeln!(out, "{what}: {number}").unwrap();
    }
    assert_eq!(out, stored("examples/c/load.stdout"));
}
