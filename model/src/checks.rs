//! Refusals 1 to 7 and the checks shared with kernel entry and RESUME.

use crate::state::*;

/// A broken rule: its number and, for the coverage table, the part that is broken.
#[derive(Clone, Copy, PartialEq, Eq, Debug)]
pub struct Broken {
    pub number: u32,
    pub reason: &'static str,
}

/// Asks for one part of a rule.
pub fn must(good: bool, number: u32, reason: &'static str) -> Result<(), Broken> {
    if good {
        Ok(())
    } else {
        Err(Broken { number, reason })
    }
}

/// Where a block or map of so many bytes ends.
fn end(address: u32, bytes: u64) -> u64 {
    u64::from(address) + bytes
}

fn aligned(address: u32) -> bool {
    address % 4 == 0
}

fn defined(status: u32) -> bool {
    status & !DEFINED == 0
}

/// Number 1: a multiple of 512, from 512 to 16,777,216.
pub fn length(length: u64) -> Result<(), Broken> {
    must(length > 0, 1, "length 0")?;
    must(length <= 16_777_216, 1, "length above 16,777,216")?;
    must(length % 512 == 0, 1, "length no multiple of 512")
}

/// Number 2.
pub fn system_block(length: u64, address: u32) -> Result<(), Broken> {
    must(aligned(address), 2, "system block no multiple of 4")?;
    must(end(address, SYSTEM_BLOCK_BYTES) <= length, 2, "system block doesn't fit")
}

/// Number 3.
pub fn control_block(length: u64, address: u32) -> Result<(), Broken> {
    control_aligned(address)?;
    control_inside(length, address)
}

pub fn control_aligned(address: u32) -> Result<(), Broken> {
    must(aligned(address), 3, "control block no multiple of 4")
}

pub fn control_inside(length: u64, address: u32) -> Result<(), Broken> {
    must(end(address, CONTROL_BLOCK_BYTES) <= length, 3, "control block doesn't fit")
}

/// Number 4: also for an empty map.
pub fn map(length: u64, base: u32, entries: u32) -> Result<(), Broken> {
    must(aligned(base), 4, "map base no multiple of 4")?;
    must(end(base, 4 * u64::from(entries)) <= length, 4, "map doesn't fit")
}

/// Number 5.
pub fn status_and_pending(state: &State) -> Result<(), Broken> {
    must(defined(state.status), 5, "status has an undefined bit")?;
    must(state.pending & 1 == 0, 5, "pending set has level 0")
}

/// Number 6.
pub fn level(level: u32) -> Result<(), Broken> {
    must(level > 0, 6, "level 0")?;
    must(level <= 15, 6, "level above 15")
}

/// Number 7.
pub fn running(state: &State) -> Result<(), Broken> {
    must(!state.stopped(), 7, "stopped")
}

/// A step or run tries 1 to 5 and 7, in number order.
pub fn of_step(state: &State, memory: &[u8]) -> Result<(), Broken> {
    let bytes = memory.len() as u64;
    length(bytes)?;
    system_block(bytes, state.system_block)?;
    control_block(bytes, state.control_block)?;
    map(bytes, state.map_base, state.map_length)?;
    status_and_pending(state)?;
    running(state)
}

/// A level request tries only 5 and 6.
pub fn of_request(state: &State, wanted: u32) -> Result<(), Broken> {
    status_and_pending(state)?;
    level(wanted)
}

/// The call that makes a fresh desk tries 1 to 3.
pub fn of_fresh(bytes: u64, system: u32, control: u32) -> Result<(), Broken> {
    length(bytes)?;
    system_block(bytes, system)?;
    control_block(bytes, control)
}

/// Number 16: the status in an entry of the system block is one of kernel mode.
pub fn kernel_status(status: u32) -> Result<(), Broken> {
    must(status & KERNEL != 0, 16, "entry has a user status")?;
    must(defined(status), 16, "entry has an undefined status bit")
}

/// Number 14: the status that RESUME loads is one of user mode.
pub fn user_status(status: u32) -> Result<(), Broken> {
    must(status & KERNEL == 0, 14, "block has a kernel status")?;
    must(defined(status), 14, "block has an undefined status bit")
}
