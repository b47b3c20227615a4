//! Document 01, 'Instruction and image': the word of an instruction, and what is refused of it.
use crate::anomaly::{INDEX, OPCODE, OPERAND, TARGET};

/// Which bytes of a word hold what; those that a format does not name are zero.
#[derive(Clone, Copy, Debug, PartialEq)]
pub enum Format {
    /// 40 to 49: not carried
    Absent,
    /// no operand
    Plain,
    /// a register in byte 1
    Reg,
    /// registers in bytes 1 and 2
    Reg2,
    /// registers in bytes 1, 2 and 3
    Reg3,
    /// a register in byte 1, `value` in bytes 4-7
    RegImm,
    /// registers in bytes 1 and 2, `imm` or `offset` in bytes 4-7
    Reg2Imm,
    /// a register in byte 1, `idx` of a global in bytes 4-7
    RegGlobal,
    /// `target` in bytes 2-3
    Target,
    /// a register in byte 1, `target` in bytes 2-3
    RegTarget,
    /// a register in byte 1, `target` in bytes 2-3, `imm` in bytes 4-7
    RegTargetImm,
    /// a register in byte 1, `target` in bytes 2-3, a second register in byte 4
    RegTargetReg,
    /// kind in byte 1, subject in byte 2, `table` in bytes 4-7
    Switch,
    /// dst in byte 1, subject in byte 2, kind in byte 3, `table` in bytes 4-7
    Lookup,
    /// `func` in bytes 4-7
    Func,
    /// dst in byte 1, kind in byte 2, align in byte 3, `size` in bytes 4-7
    Alloc,
}

macro_rules! instructions {
    ($($name:ident $format:ident $number:literal,)*) => {
        /// Every `Op` by its place in op.rs.
        #[allow(non_upper_case_globals)]
        pub mod op {
            $(pub const $name: u8 = $number;)*
        }
        pub const ROWS: &[(&str, Format)] = &[$((stringify!($name), Format::$format),)*];
    };
}

instructions! {
    IAdd Reg3 0, IAddI Reg2Imm 1, ISub Reg3 2, ISubI Reg2Imm 3, IMul Reg3 4, IMulI Reg2Imm 5,
    IDiv Reg3 6, IDivI Reg2Imm 7, IMod Reg3 8, IModI Reg2Imm 9, IAnd Reg3 10, IAndI Reg2Imm 11,
    ILt Reg3 12, IGt Reg3 13, IEq Reg3 14, IEqI Reg2Imm 15, IGtI Reg2Imm 16, ILtI Reg2Imm 17,
    DAdd Reg3 18, DSub Reg3 19, DMul Reg3 20, DDiv Reg3 21, DLt Reg3 22, DGt Reg3 23,
    BEq Reg3 24, SEq Reg3 25, Mov Reg2 26, LoadI RegImm 27, LoadG RegGlobal 28,
    Jmp Target 29, JmpT RegTarget 30, JmpF RegTarget 31, JmpEqI RegTargetImm 32, JmpNeI RegTargetImm 33,
    JmpSEq RegTargetReg 34, JmpSNe RegTargetReg 35, Switch Switch 36, Lookup Lookup 37,
    Tail Func 38, Call Func 39,
    Sys Absent 40, Native Absent 41, Push Absent 42, Push2 Absent 43, Push3 Absent 44, Pop Absent 45,
    Pop2 Absent 46, Pop3 Absent 47, StoreSlot Absent 48, LoadSlot Absent 49,
    CastToInt Reg2 50, CastToDouble Reg2 51, CastToBool Reg2 52, Alloc Alloc 53,
    Store Reg2Imm 54, Load Reg2Imm 55, AddrOf Reg2Imm 56, Ret Plain 57, Assert Reg 58, Halt Plain 59, Nop Plain 60,
}

pub fn byte(word: u64, n: u32) -> u64 {
    word >> (8 * n) & 0xff
}

pub fn target(word: u64) -> u64 {
    word >> 16 & 0xffff
}

/// `size`, `offset`, `idx`, `func`, `table`: unsigned.
pub fn high(word: u64) -> u64 {
    word >> 32
}

/// `imm`, `value`: signed, extended to 64 bits.
pub fn imm(word: u64) -> u64 {
    (word as i64 >> 32) as u64
}

/// What a word's indices are held to.
#[derive(Clone, Copy)]
pub struct Counts {
    pub code: u64,
    pub globals: u64,
    pub switches: u64,
    pub lookups: u64,
}

/// The first of 12, 13, 14, 15 that refuses the word.
pub fn refusal(word: u64, counts: Counts) -> Option<u8> {
    let format = match ROWS.get(byte(word, 0) as usize) {
        None | Some((_, Format::Absent)) => return Some(OPCODE),
        Some((_, format)) => *format,
    };
    let b = |n| byte(word, n);
    let register = |n| b(n) < 32;
    let zero = |from: u32, to: u32| (from..=to).all(|n| b(n) == 0);
    let kind = |n| b(n) < 2;
    let operands = match format {
        Format::Absent => false,
        Format::Plain => zero(1, 7),
        Format::Reg => register(1) && zero(2, 7),
        Format::Reg2 => register(1) && register(2) && zero(3, 7),
        Format::Reg3 => register(1) && register(2) && register(3) && zero(4, 7),
        Format::RegImm | Format::RegGlobal => register(1) && zero(2, 3),
        Format::Reg2Imm => register(1) && register(2) && zero(3, 3),
        Format::Target => zero(1, 1) && zero(4, 7),
        Format::RegTarget => register(1) && zero(4, 7),
        Format::RegTargetImm => register(1),
        Format::RegTargetReg => register(1) && register(4) && zero(5, 7),
        Format::Switch => kind(1) && register(2) && zero(3, 3),
        Format::Lookup => register(1) && register(2) && kind(3),
        Format::Func => zero(1, 3),
        Format::Alloc => register(1) && b(2) < 4 && [1, 2, 4, 8].contains(&b(3)),
    };
    if !operands {
        return Some(OPERAND);
    }
    let jump = match format {
        Format::Target | Format::RegTarget | Format::RegTargetImm | Format::RegTargetReg => target(word),
        Format::Func => high(word),
        _ => 0,
    };
    if jump >= counts.code {
        return Some(TARGET);
    }
    let count = match format {
        Format::RegGlobal => counts.globals,
        Format::Switch => counts.switches,
        Format::Lookup => counts.lookups,
        _ => return None,
    };
    (high(word) >= count).then_some(INDEX)
}
