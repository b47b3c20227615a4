//! Document 01: '4,096-byte pages served in sequence from B', and the spill stack, which no carried instruction uses.

pub mod page;
pub mod stack;
