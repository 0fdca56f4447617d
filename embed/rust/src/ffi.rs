//! The calls of libmidesk.a: the only unsafe code of this crate.
//!
//! The archive asks of its caller that the pointers lead to as many bytes or breakpoints as said, readable and (except
//! for `fresh`'s memory, all lists and breakpoints) writable, that they do not overlap (two lists may), and that nobody
//! else uses them during the call. References give all of it. Every content of the bytes and every number is answered.

use crate::{Breakpoint, STATE_BYTES};

mod c {
    use crate::Breakpoint;

    extern "C" {
        pub fn midesk_fresh(mem: *const u8, len: usize, system: u32, control: u32, start: u32, state: *mut u8) -> u32;
        pub fn midesk_step(mem: *mut u8, len: usize, state: *mut u8) -> u64;
        pub fn midesk_run(mem: *mut u8, len: usize, state: *mut u8, n: u64, steps: *mut u64) -> u32;
        pub fn midesk_run_to(
            mem: *mut u8,
            len: usize,
            state: *mut u8,
            n: u64,
            points: *const Breakpoint,
            count: usize,
            steps: *mut u64,
        ) -> u64;
        pub fn midesk_request(state: *mut u8, level: u32) -> u32;
        pub fn midesk_load(mem: *mut u8, len: usize, list: *const u8, list_len: usize) -> u32;
        pub fn midesk_load_both(
            mem: *mut u8,
            len: usize,
            first: *const u8,
            first_len: usize,
            second: *const u8,
            second_len: usize,
            scratch: *mut u8,
            scratch_len: usize,
        ) -> u32;
        pub fn midesk_version() -> u32;
    }
}

/// The number of the refusal, or 0.
pub fn fresh(mem: &[u8], system: u32, control: u32, start: u32, state: &mut [u8; STATE_BYTES]) -> u32 {
    // SAFETY: `mem` is `mem.len()` bytes that may be read, `state` 90 bytes that may be written; a shared and an
    // exclusive reference do not overlap. The call only reads `mem`.
    unsafe { c::midesk_fresh(mem.as_ptr(), mem.len(), system, control, start, state.as_mut_ptr()) }
}

/// Kind × 2^32 + number.
pub fn step(mem: &mut [u8], state: &mut [u8; STATE_BYTES]) -> u64 {
    // SAFETY: `mem` is `mem.len()` bytes and `state` 90 bytes that may be read and written; exclusive references do not
    // overlap.
    unsafe { c::midesk_step(mem.as_mut_ptr(), mem.len(), state.as_mut_ptr()) }
}

/// The number of the refusal, or 0; and the steps made.
pub fn run(mem: &mut [u8], state: &mut [u8; STATE_BYTES], n: u64) -> (u32, u64) {
    let mut steps = 0;
    // SAFETY: as for `step`; `steps` is a variable of its own, eight bytes that may be written.
    let answer = unsafe { c::midesk_run(mem.as_mut_ptr(), mem.len(), state.as_mut_ptr(), n, &mut steps) };
    (answer, steps)
}

/// Kind × 2^32 + number; and the steps made.
pub fn run_to(mem: &mut [u8], state: &mut [u8; STATE_BYTES], n: u64, points: &[Breakpoint]) -> (u64, u64) {
    let mut steps = 0;
    // SAFETY: as for `run`; `points` is `points.len()` breakpoints that may be read, laid out as the header's struct
    // (`repr(C)`), whose `armed` is 0 or 1. An exclusive and a shared reference do not overlap, and nobody writes
    // `points` meanwhile. The call only reads them.
    let answer = unsafe {
        let (points, count) = (points.as_ptr(), points.len());
        c::midesk_run_to(mem.as_mut_ptr(), mem.len(), state.as_mut_ptr(), n, points, count, &mut steps)
    };
    (answer, steps)
}

/// The number of the refusal, or 0.
pub fn request(state: &mut [u8; STATE_BYTES], level: u32) -> u32 {
    // SAFETY: `state` is 90 bytes that may be read and written.
    unsafe { c::midesk_request(state.as_mut_ptr(), level) }
}

/// The number of the refusal, or 0.
pub fn load(mem: &mut [u8], list: &[u8]) -> u32 {
    // SAFETY: `mem` is `mem.len()` bytes that may be read and written, `list` `list.len()` bytes that may be read; an
    // exclusive and a shared reference do not overlap, and nobody writes `list` meanwhile. The call only reads it.
    unsafe { c::midesk_load(mem.as_mut_ptr(), mem.len(), list.as_ptr(), list.len()) }
}

/// The number of the refusal, or 0.
pub fn load_both(mem: &mut [u8], first: &[u8], second: &[u8], scratch: &mut [u8]) -> u32 {
    // SAFETY: `mem` and `scratch` are as many bytes as said that may be read and written, `first` and `second` as many
    // that may be read. An exclusive reference overlaps no other reference, and nobody writes the lists meanwhile. The
    // two lists may overlap each other: the call only reads them.
    unsafe {
        c::midesk_load_both(
            mem.as_mut_ptr(),
            mem.len(),
            first.as_ptr(),
            first.len(),
            second.as_ptr(),
            second.len(),
            scratch.as_mut_ptr(),
            scratch.len(),
        )
    }
}

/// The version of the archive.
pub fn version() -> u32 {
    // SAFETY: the call takes nothing and touches no memory.
    unsafe { c::midesk_version() }
}
