//! The limits, and the words of a state and of an image, named as in `include/girzhanok.h`. A test compares them with it and with the
//! proved source.

/// How many words a state has.
pub const STATE_WORDS: usize = 40;
/// Words of an image, at most: every section at its limit.
pub const IMAGE_MAX: usize = 79113;
/// Words of code, at most.
pub const CODE_MAX: usize = 65536;
/// Globals, at most.
pub const GLOBALS_MAX: usize = 4096;
/// Tables of a kind, at most.
pub const TABLES_MAX: usize = 256;
/// Entries of all tables of a kind, at most.
pub const ENTRIES_MAX: usize = 4096;
/// Frames, at least.
pub const FRAMES_MIN: usize = 1;
/// Frames, at most.
pub const FRAMES_MAX: usize = 16384;
/// How many bytes a page has: a heap is whole pages, and its base a multiple of this, and not 0.
pub const PAGE_SIZE: usize = 4096;
/// Pages of a heap, at least.
pub const PAGES_MIN: usize = 1;
/// Pages of a heap, at most.
pub const PAGES_MAX: usize = 256;
/// The base plus the heap's length, at most: 2^48.
pub const HEAP_END_MAX: u64 = 281474976710656;
/// Slots, at least; they are a power of two, and the spare ones as many.
pub const SLOTS_MIN: usize = 64;
/// Slots, at most.
pub const SLOTS_MAX: usize = 4096;

/// How many registers a machine has: words 0 to 31 of a state.
pub const REGISTERS: usize = 32;
/// The word of the stored pc.
pub const WORD_PC: usize = 32;
/// The word of the depth, the frames in use.
pub const WORD_DEPTH: usize = 33;
/// The word of the heap's base.
pub const WORD_BASE: usize = 34;
/// The word of how many bytes of the heap are in pushed pages.
pub const WORD_PUSHED: usize = 35;
/// The word of the last page's place in the heap.
pub const WORD_PAGE: usize = 36;
/// The word of how many bytes of the last page are in use.
pub const WORD_LEN: usize = 37;
/// The word of how many slots are in use.
pub const WORD_ACTIVE: usize = 38;
/// The word of how many names are interned.
pub const WORD_NAMES: usize = 39;

/// How many words say where the sections of an image end: those before its code.
pub const IMAGE_ENDS: usize = 9;
/// The word of an image that says where its code ends and its globals begin.
pub const END_CODE: usize = 0;
/// The word of an image that says where its globals end.
pub const END_GLOBALS: usize = 1;
