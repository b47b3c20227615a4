//! Pages at fixed addresses, so that an address in the original is the paper's B plus an offset without translation.
use std::alloc::{AllocError, Allocator, Layout};
use std::cell::Cell;
use std::ffi::{c_int, c_void};
use std::ptr::NonNull;

pub mod mmap {
    pub fn page_size() -> usize {
        4096
    }
}

/// The original's own choice where it is given no allocator; here it always is given one.
pub struct PageAlloc {}

unsafe impl Allocator for PageAlloc {
    fn allocate(&self, _: Layout) -> Result<NonNull<[u8]>, AllocError> {
        Err(AllocError)
    }

    unsafe fn deallocate(&self, _: NonNull<u8>, _: Layout) {}
}

unsafe extern "C" {
    fn mmap(at: *mut c_void, len: usize, prot: c_int, flags: c_int, fd: c_int, offset: i64) -> *mut c_void;
    fn munmap(at: *mut c_void, len: usize) -> c_int;
}

const PROT_READ_WRITE: c_int = 3;
const MAP_PRIVATE: c_int = 0x2;
const MAP_ANONYMOUS: c_int = 0x20;
/// Linux: at exactly this address, or not at all where something is mapped there.
const MAP_FIXED_NOREPLACE: c_int = 0x10_0000;

/// The lent heap, mapped whole at `base`; zero as the system gives it.
#[derive(Debug)]
pub struct Heap {
    base: usize,
    len: usize,
    pushed: Cell<usize>,
}

impl Heap {
    /// `None` where the system does not give these addresses.
    pub fn map(base: usize, len: usize) -> Option<Self> {
        let at = base as *mut c_void;
        let flags = MAP_PRIVATE | MAP_ANONYMOUS | MAP_FIXED_NOREPLACE;
        // SAFETY: maps nothing over what is mapped
        let got = unsafe { mmap(at, len, PROT_READ_WRITE, flags, -1, 0) };
        if got == usize::MAX as *mut c_void {
            return None;
        }
        let heap = Self { base: got as usize, len, pushed: Cell::new(0) };
        // a system that does not know the flag maps somewhere else: dropping unmaps it
        (got == at).then_some(heap)
    }

    /// The bytes of all pages served so far.
    pub fn pushed(&self) -> &[u8] {
        // SAFETY: mapped, and the machine that writes them is not running while they are read
        unsafe { std::slice::from_raw_parts(self.base as *const u8, self.pushed.get()) }
    }
}

impl Drop for Heap {
    fn drop(&mut self) {
        // SAFETY: what `map` mapped
        unsafe { munmap(self.base as *mut c_void, self.len) };
    }
}

unsafe impl Allocator for &Heap {
    fn allocate(&self, layout: Layout) -> Result<NonNull<[u8]>, AllocError> {
        let at = self.pushed.get();
        if layout.size() > self.len - at {
            return Err(AllocError);
        }
        self.pushed.set(at + layout.size());
        let ptr = NonNull::new((self.base + at) as *mut u8).ok_or(AllocError)?;
        Ok(NonNull::slice_from_raw_parts(ptr, layout.size()))
    }

    /// Fresh mapped pages are zero, and none is served twice.
    fn allocate_zeroed(&self, layout: Layout) -> Result<NonNull<[u8]>, AllocError> {
        self.allocate(layout)
    }

    unsafe fn deallocate(&self, _: NonNull<u8>, _: Layout) {}
}
