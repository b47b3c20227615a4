//! The original, driven: its `Vm` over pages at the paper's own addresses.
use crate::anomaly::{ALLOCATION_FAILED, ASSERTION_FAILED, DIVISION_BY_ZERO, HALT, SIZE, STACK_OVERFLOW};
use crate::image::Image;
use crate::machine::{Answer, Call, Lent, Machine, View};
use purple_garden_allocators::page::Heap;
use purple_garden_runtime::op::{LookupTable, Op, SwitchKind, SwitchTable};
use purple_garden_runtime::string::StrTable;
use purple_garden_runtime::{AllocType, Anomaly, CallFrame, REGISTER_COUNT, Value, Vm, VmConfig};
use std::alloc::Layout;
use std::borrow::Cow;
use std::fmt::{self, Write};
use std::mem::offset_of;
use std::ptr::NonNull;
use std::sync::LazyLock;

/// A machine of the original. It tests nothing: a call that does not keep its written conditions must not be made.
pub struct Original {
    /// Before `heap`: its pages go back to the allocator when it is dropped.
    vm: Vm<'static>,
    heap: Box<Heap>,
    base: u64,
}

fn switch_kind(kind: u64) -> SwitchKind {
    if kind == 0 { SwitchKind::Str } else { SwitchKind::Int }
}

/// The instruction of a word that the loader takes. Tables are where the machine keeps them.
fn op(word: u64, switches: &[Box<SwitchTable>], lookups: &[Box<LookupTable>]) -> Op {
    let [number, a, b, c, fourth, ..] = word.to_le_bytes();
    let target = (word >> 16) as u16;
    let imm = (word >> 32) as i32;
    let high = (word >> 32) as u32;
    let (dst, lhs, rhs) = (a, b, c);
    match number {
        0 => Op::IAdd { dst, lhs, rhs },
        1 => Op::IAddI { dst, lhs, imm },
        2 => Op::ISub { dst, lhs, rhs },
        3 => Op::ISubI { dst, lhs, imm },
        4 => Op::IMul { dst, lhs, rhs },
        5 => Op::IMulI { dst, lhs, imm },
        6 => Op::IDiv { dst, lhs, rhs },
        7 => Op::IDivI { dst, lhs, imm },
        8 => Op::IMod { dst, lhs, rhs },
        9 => Op::IModI { dst, lhs, imm },
        10 => Op::IAnd { dst, lhs, rhs },
        11 => Op::IAndI { dst, lhs, imm },
        12 => Op::ILt { dst, lhs, rhs },
        13 => Op::IGt { dst, lhs, rhs },
        14 => Op::IEq { dst, lhs, rhs },
        15 => Op::IEqI { dst, lhs, imm },
        16 => Op::IGtI { dst, lhs, imm },
        17 => Op::ILtI { dst, lhs, imm },
        18 => Op::DAdd { dst, lhs, rhs },
        19 => Op::DSub { dst, lhs, rhs },
        20 => Op::DMul { dst, lhs, rhs },
        21 => Op::DDiv { dst, lhs, rhs },
        22 => Op::DLt { dst, lhs, rhs },
        23 => Op::DGt { dst, lhs, rhs },
        24 => Op::BEq { dst, lhs, rhs },
        25 => Op::SEq { dst, lhs, rhs },
        26 => Op::Mov { dst, src: b },
        27 => Op::LoadI { dst, value: imm },
        28 => Op::LoadG { dst, idx: high },
        29 => Op::Jmp { target },
        30 => Op::JmpT { cond: a, target },
        31 => Op::JmpF { cond: a, target },
        32 => Op::JmpEqI { lhs: a, imm, target },
        33 => Op::JmpNeI { lhs: a, imm, target },
        34 => Op::JmpSEq { lhs: a, rhs: fourth, target },
        35 => Op::JmpSNe { lhs: a, rhs: fourth, target },
        36 => Op::Switch { kind: switch_kind(a.into()), subject: b, table: NonNull::from(&*switches[high as usize]) },
        37 => Op::Lookup { kind: switch_kind(c.into()), dst, subject: b, table: NonNull::from(&*lookups[high as usize]) },
        38 => Op::Tail { func: high },
        39 => Op::Call { func: high },
        50 => Op::CastToInt { dst, src: b },
        51 => Op::CastToDouble { dst, src: b },
        52 => Op::CastToBool { dst, src: b },
        53 => Op::Alloc { dst, kind: AllocType::from_u8(b).unwrap(), size: high, align: c },
        54 => Op::Store { base: a, offset: high, src: b },
        55 => Op::Load { dst, base: b, offset: high },
        56 => Op::AddrOf { dst, base: b, offset: high },
        57 => Op::Ret,
        58 => Op::Assert { cond: a },
        59 => Op::Halt,
        60 => Op::Nop,
        _ => unreachable!("not carried: {number}"),
    }
}

/// `frames` and `frame_depth` are private; `Vm` is `repr(C)`, so they lie between `pc` and `bytecode`.
const FRAMES: usize = offset_of!(Vm, pc) + size_of::<usize>();
const DEPTH: usize = FRAMES + size_of::<Box<[CallFrame]>>();
const _: () = assert!(DEPTH + size_of::<usize>() == offset_of!(Vm, bytecode));
const _: () = assert!(size_of::<CallFrame>() == size_of::<u64>() && size_of::<Value>() == size_of::<u64>());

/// Which words of a `StrTable` hold its slots, how many, and the count of names. Its fields are private and in no promised order:
/// they are found once, in a table with one name, and checked against what `Debug` prints of it.
struct TableFields {
    slots: usize,
    active: usize,
    names: usize,
}

/// As pointers, so that the one among them stays one; the counts are their addresses.
type TableWords = [*const u64; 4];
const _: () = assert!(size_of::<StrTable>() == size_of::<TableWords>());

fn words_of(table: &StrTable) -> TableWords {
    // SAFETY: as large; a vector and a count have no padding
    unsafe { std::ptr::from_ref(table).cast::<TableWords>().read() }
}

static TABLE: LazyLock<TableFields> = LazyLock::new(|| {
    let empty_string = [0u64];
    let mut table = StrTable::default();
    // SAFETY: a string's header, not in the table yet
    unsafe { table.insert(Value::from_ptr(empty_string.as_ptr().cast_mut())) };
    let words = words_of(&table);
    let place = |what: fn(usize) -> bool| words.iter().position(|w| what(w.addr())).expect("a field of the table");
    let fields = TableFields { slots: place(|w| w > 64), active: place(|w| w == 64), names: place(|w| w == 1) };
    let mut printed = numbers_of(&table);
    assert_eq!((printed.pop(), &printed[..]), (Some(1), slots_of(&table, &fields)));
    fields
});

fn slots_of<'a>(table: &'a StrTable, fields: &TableFields) -> &'a [u64] {
    let words = words_of(table);
    // SAFETY: the table's own slots, `Value` being a u64
    unsafe { std::slice::from_raw_parts(words[fields.slots], words[fields.active].addr()) }
}

/// The numbers in what `Debug` prints of the pages and of the table, whose fields are private.
#[derive(Default)]
struct Numbers {
    found: Vec<u64>,
    /// the number that is being read, and its base
    now: Option<(u64, u64)>,
    /// whether a word is being read, whose digits are no numbers
    word: bool,
}

impl Write for Numbers {
    fn write_str(&mut self, s: &str) -> fmt::Result {
        for b in s.bytes() {
            match (b, self.now) {
                (b'x', Some((0, _))) => self.now = Some((0, 16)),
                (b'0'..=b'9' | b'a'..=b'f', Some((n, radix))) if b.is_ascii_digit() || radix == 16 => {
                    let digit = (b as char).to_digit(16).unwrap();
                    self.now = Some((n * radix + u64::from(digit), radix));
                }
                (b'0'..=b'9', None) if !self.word => self.now = Some((u64::from(b - b'0'), 10)),
                _ => {
                    self.found.extend(self.now.take().map(|(n, _)| n));
                    self.word = b.is_ascii_alphanumeric() || b == b'_';
                }
            }
        }
        Ok(())
    }
}

fn numbers_of(value: &impl fmt::Debug) -> Vec<u64> {
    let mut numbers = Numbers::default();
    write!(numbers, "{value:?} ").unwrap();
    numbers.found
}

impl Original {
    /// `None` where the system does not give the addresses.
    pub fn lend(lent: Lent) -> Option<Self> {
        let heap = Box::new(Heap::map(lent.base as usize, lent.heap as usize)?);
        // SAFETY: `heap` stays where it is and outlives `vm`, which is dropped first
        let pages: &'static Heap = unsafe { &*&raw const *heap };
        let config = VmConfig { backtrace: false, no_gc: false, stack_size: lent.frames as usize - 1 };
        Some(Self { vm: Vm::new_in(config, pages), heap, base: lent.base })
    }

    fn set_image(&mut self, image: &Image) {
        let vm = &mut self.vm;
        vm.bytecode.clear();
        let value = |&v: &u64| Value(v);
        vm.switch_tables = image
            .switches
            .iter()
            .map(|t| {
                let targets = t.targets.iter().map(|&target| target as u16).collect();
                Box::new(SwitchTable { first: t.first, targets })
            })
            .collect();
        vm.lookup_tables = image
            .lookups
            .iter()
            .map(|t| {
                let values = t.values.iter().map(value).collect();
                Box::new(LookupTable { first: t.first, values, default: Value(t.default) })
            })
            .collect();
        vm.globals = image.globals.iter().map(value).collect();
        vm.bytecode = image.code.iter().map(|&w| op(w, &vm.switch_tables, &vm.lookup_tables)).collect();
    }

    fn run(&mut self, image: &Image) -> Answer {
        self.set_image(image);
        let (number, pc) = match self.vm.run::<false>(&[]) {
            Ok(()) => (HALT, self.vm.pc),
            Err(Anomaly::DivisionByZero { pc }) => (DIVISION_BY_ZERO, pc),
            Err(Anomaly::AllocationFailed { pc }) => (ALLOCATION_FAILED, pc),
            Err(Anomaly::StackOverflow { pc }) => (STACK_OVERFLOW, pc),
            Err(Anomaly::AssertionFailed { pc }) => (ASSERTION_FAILED, pc),
        };
        Answer::End { number, pc: pc as u64, steps: None }
    }

    fn depth(&self) -> usize {
        // SAFETY: the field's place, see DEPTH
        unsafe { (&raw const self.vm).byte_add(DEPTH).cast::<usize>().read() }
    }

    fn frames(&self) -> &[u64] {
        // SAFETY: the field's place, see FRAMES; a frame of a release is its return alone
        let frames = unsafe { &*(&raw const self.vm).byte_add(FRAMES).cast::<Box<[CallFrame]>>() };
        // SAFETY: as many as there are, of 8 bytes
        unsafe { std::slice::from_raw_parts(frames.as_ptr().cast(), frames.len()) }
    }
}

impl Machine for Original {
    fn start(lent: Lent, _image: &Image) -> Result<Self, u8> {
        Self::lend(lent).ok_or(SIZE)
    }

    fn call(&mut self, images: &[Image], call: &Call) -> Answer {
        let vm = &mut self.vm;
        match *call {
            // without a budget: that the run comes to its end is known before
            Call::Run { image, .. } => self.run(&images[image]),
            Call::Reset => {
                vm.reset();
                Answer::Done
            }
            Call::SetPc(pc) => {
                vm.pc = pc as usize;
                Answer::Done
            }
            Call::SetRegister { register, value } => {
                // SAFETY: 13 refuses others
                unsafe { *vm.r_mut(register as usize) = Value(value) };
                Answer::Done
            }
            Call::Allocate { kind, align, size } => {
                let layout = Layout::from_size_align(size as usize, align as usize);
                match vm.try_alloc(AllocType::from_u8(kind as u8).unwrap(), layout.unwrap()) {
                    Some(at) => Answer::Value(at.as_ptr() as u64),
                    None => Answer::Refused(ALLOCATION_FAILED),
                }
            }
            Call::NewOption(value) => Answer::Value(vm.new_option(value.map(|v| v as i64)).0),
            Call::Intern(ref bytes) => {
                // tested for debugging alone, as the time of a test would be the original's in the bench
                debug_assert!(std::str::from_utf8(bytes).is_ok());
                // SAFETY: only UTF-8 names are compared
                let s = unsafe { std::str::from_utf8_unchecked(bytes) };
                Answer::Value(vm.new_string_from_str(s).0)
            }
            Call::InternSmall { len, word } => {
                // SAFETY: only UTF-8 names are compared
                Answer::Value(unsafe { vm.new_string_from_small(len as usize, word) }.0)
            }
            Call::MakeUp { .. } => unreachable!("the original's state is its own"),
        }
    }

    fn view(&self) -> View<'_> {
        // for each page its address, size and length; then the page size
        let pages = numbers_of(&self.vm.gc);
        let (page_size, pages) = pages.split_last().expect("a page size");
        assert_eq!(*page_size, 4096);
        let page = |p: &[u64]| (p[0].wrapping_sub(self.base), p[1]);
        let pages: Vec<&[u64]> = pages.chunks(3).collect();
        let last = pages.last().expect("page 0");
        View {
            // SAFETY: below REGISTER_COUNT
            regs: (0..REGISTER_COUNT).map(|i| unsafe { self.vm.r(i) }.0).collect(),
            pc: self.vm.pc as u64,
            depth: self.depth() as u64,
            frames: Cow::Borrowed(&self.frames()[..self.depth()]),
            heap: Cow::Borrowed(self.heap.pushed()),
            page: page(last).0,
            len: last[2],
            slots: Cow::Borrowed(slots_of(&self.vm.strings, &TABLE)),
            names: words_of(&self.vm.strings)[TABLE.names].addr() as u64,
            pages: Some(pages.iter().map(|p| page(p)).collect()),
            whole: None,
        }
    }
}
