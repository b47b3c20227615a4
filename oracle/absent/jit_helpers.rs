//! A stand-in for the module of this name: native code is not carried, and nothing here is ever called.
use crate::BuiltinFn;

const ABSENT: &str = "native code is not carried";

pub unsafe fn enter_native(_vm: *mut (), _function: BuiltinFn) {
    unreachable!("{ABSENT}")
}

pub unsafe fn enter_native_double(_vm: *mut (), _function: BuiltinFn) {
    unreachable!("{ABSENT}")
}

pub fn jit_abort() {
    unreachable!("{ABSENT}")
}

pub fn jit_alloc() {
    unreachable!("{ABSENT}")
}

pub fn jit_trap_assert() {
    unreachable!("{ABSENT}")
}

pub fn jit_trap_div_zero() {
    unreachable!("{ABSENT}")
}

pub fn jit_trap_stack_overflow() {
    unreachable!("{ABSENT}")
}
