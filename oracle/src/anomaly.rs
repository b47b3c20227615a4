//! Document 01, 'Ends and numbers', by the names of the proved source and of include/girzhanok.h.

pub const HALT: u8 = 0;
pub const DIVISION_BY_ZERO: u8 = 1;
pub const ALLOCATION_FAILED: u8 = 2;
pub const STACK_OVERFLOW: u8 = 3;
pub const ASSERTION_FAILED: u8 = 4;
pub const BUDGET: u8 = 5;
pub const BAD_ADDRESS: u8 = 6;
pub const QUOTIENT_OVERFLOW: u8 = 7;
pub const FRAME_UNDERFLOW: u8 = 8;
pub const STATE: u8 = 9;
pub const SIZE: u8 = 10;
pub const NO_HALT: u8 = 11;
pub const OPCODE: u8 = 12;
pub const OPERAND: u8 = 13;
pub const TARGET: u8 = 14;
pub const INDEX: u8 = 15;
pub const TABLE_TARGET: u8 = 16;
pub const SMALL_STRING: u8 = 17;
pub const TABLE_FULL: u8 = 18;
pub const TEXT: u8 = 19;
