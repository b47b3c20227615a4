//! The type of builtins, the stack's size, and where a thread's stack ends.

pub type BuiltinFn = unsafe extern "C" fn(*mut ());

pub mod config {
    /// `frames_in` divides by the 8 bytes of a frame: with 8 here a `stack_size` of n gives n + 1 frames.
    pub const MIB: usize = 8;
    pub const DEFAULT_STACK_SIZE: usize = 0;
}

pub mod stack {
    /// Read by native code alone.
    pub fn thread_stack_low() -> Option<usize> {
        None
    }
}
