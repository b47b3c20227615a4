//! The library's functions as C declares them (`include/girzhanok.h`). A test compares these declarations with the proved source.

extern "C" {
    pub fn girzhanok_start(
        state: *mut u64,
        state_len: usize,
        base: u64,
        image: *const u64,
        image_len: usize,
        frames: *mut u64,
        frames_len: usize,
        heap: *mut u8,
        heap_len: usize,
        slots: *const u64,
        slots_len: usize,
        spare: *const u64,
        spare_len: usize,
    ) -> u64;

    pub fn girzhanok_run(
        state: *mut u64,
        state_len: usize,
        budget: u32,
        pc: *mut usize,
        steps: *mut u32,
        image: *const u64,
        image_len: usize,
        frames: *mut u64,
        frames_len: usize,
        heap: *mut u8,
        heap_len: usize,
    ) -> u64;

    pub fn girzhanok_reset(state: *mut u64, state_len: usize, frames: *mut u64, frames_len: usize) -> u64;

    pub fn girzhanok_set_pc(state: *mut u64, state_len: usize, pc: usize) -> u64;

    pub fn girzhanok_set_register(state: *mut u64, state_len: usize, number: usize, value: u64) -> u64;

    pub fn girzhanok_allocate(
        state: *mut u64,
        state_len: usize,
        kind: u64,
        align: usize,
        size: u64,
        heap: *mut u8,
        heap_len: usize,
        value: *mut u64,
    ) -> u64;

    pub fn girzhanok_option(
        state: *mut u64,
        state_len: usize,
        some: bool,
        payload: u64,
        heap: *mut u8,
        heap_len: usize,
        value: *mut u64,
    ) -> u64;

    pub fn girzhanok_intern(
        state: *mut u64,
        state_len: usize,
        name: *const u8,
        name_len: usize,
        heap: *mut u8,
        heap_len: usize,
        slots: *mut u64,
        slots_len: usize,
        spare: *mut u64,
        spare_len: usize,
        value: *mut u64,
    ) -> u64;

    pub fn girzhanok_intern_small(
        state: *mut u64,
        state_len: usize,
        len: usize,
        word: u64,
        heap: *mut u8,
        heap_len: usize,
        slots: *mut u64,
        slots_len: usize,
        spare: *mut u64,
        spare_len: usize,
        value: *mut u64,
    ) -> u64;
}
