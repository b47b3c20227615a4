//! `Push` to `Pop3`, `StoreSlot` and `LoadSlot` are not carried: nothing here is ever called but `new`.
use std::mem::MaybeUninit;

pub struct StackAlloc;

const ABSENT: &str = "the spill stack is not carried";

impl StackAlloc {
    pub fn new(_memory: &mut [MaybeUninit<u8>]) -> Self {
        Self
    }

    pub fn push<T>(&self, _value: T) -> bool {
        unreachable!("{ABSENT}")
    }

    pub fn push_all<T, const N: usize>(&self, _values: [T; N]) -> bool {
        unreachable!("{ABSENT}")
    }

    pub fn pop<T>(&self) -> T {
        unreachable!("{ABSENT}")
    }

    pub fn pop_all<T, const N: usize>(&self) -> [T; N] {
        unreachable!("{ABSENT}")
    }

    pub fn peek<T>(&self, _slot: usize) -> T {
        unreachable!("{ABSENT}")
    }

    pub fn poke<T>(&self, _slot: usize, _value: T) {
        unreachable!("{ABSENT}")
    }

    pub fn depth(&self) -> usize {
        unreachable!("{ABSENT}")
    }
}
