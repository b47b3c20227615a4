//! The original has no budget and tests nothing: where it parts from the model it may run on for ever or fall over. So it is run in
//! a child process, which dies alone.
use std::ffi::{c_int, c_uint, c_void};
use std::panic::{AssertUnwindSafe, catch_unwind};

unsafe extern "C" {
    fn fork() -> c_int;
    fn waitpid(child: c_int, status: *mut c_int, options: c_int) -> c_int;
    fn alarm(seconds: c_uint) -> c_uint;
    fn _exit(status: c_int) -> !;
    fn mmap(at: *mut c_void, len: usize, prot: c_int, flags: c_int, fd: c_int, offset: i64) -> *mut c_void;
}

/// How a child ended.
pub enum Ended {
    Exit(u8),
    /// Killed: by the clock (14) or by what it did (11 and others).
    Signal(u8),
}

/// What a child that panicked exits with.
const PANICKED: u8 = 101;

/// Runs `work` in a child.
pub fn child(work: impl FnOnce() -> u8) -> Ended {
    // SAFETY: one thread
    match unsafe { fork() } {
        -1 => panic!("no child process"),
        0 => {
            let status = catch_unwind(AssertUnwindSafe(work)).unwrap_or(PANICKED);
            // SAFETY: nothing is left to be written or dropped
            unsafe { _exit(status.into()) }
        }
        child => {
            let mut status = 0;
            // SAFETY: our own child
            unsafe { waitpid(child, &mut status, 0) };
            if status & 0x7f == 0 { Ended::Exit((status >> 8) as u8) } else { Ended::Signal((status & 0x7f) as u8) }
        }
    }
}

/// From now on the process has so many seconds.
pub fn seconds(n: u32) {
    // SAFETY: no handler is set, the signal ends the process
    unsafe { alarm(n) };
}

/// A number that a child shares with its parent.
pub struct Shared(*mut u64);

impl Shared {
    pub fn new() -> Self {
        // readable and writable, shared, anonymous
        let at = unsafe { mmap(std::ptr::null_mut(), 4096, 3, 0x21, -1, 0) };
        assert!(at as usize != usize::MAX, "no shared page");
        Self(at.cast())
    }

    pub fn set(&self, n: u64) {
        // SAFETY: the mapped page
        unsafe { self.0.write_volatile(n) };
    }

    pub fn get(&self) -> u64 {
        // SAFETY: the mapped page
        unsafe { self.0.read_volatile() }
    }
}
