//! Refusals, interrupts, kernel entry.

use crate::state::{State, KERNEL, RUNNING};

/// The bits that a status word may have.
const DEFINED: u32 = 0x8000_00FF;
const LONGEST: u64 = 16_777_216;

/// Whether a memory may have this length.
pub fn allowed(length: u64) -> bool {
    length != 0 && length <= LONGEST && length & 511 == 0
}

/// Refusals 1 to 5 and 7, in number order.
pub fn refusal(memory: &[u8], desk: &State) -> Result<(), u32> {
    let length = memory.len() as u64;
    let fits = |address: u32, bytes: u64| address & 3 == 0 && u64::from(address) + bytes <= length;
    if !allowed(length) {
        Err(1)
    } else if !fits(desk.system_block, 256) {
        Err(2)
    } else if !fits(desk.control_block, 80) {
        Err(3)
    } else if !fits(desk.map_base, 4 * u64::from(desk.map_length)) {
        Err(4)
    } else if desk.status & !DEFINED != 0 || desk.pending & 1 != 0 {
        Err(5)
    } else if desk.stopped != RUNNING {
        Err(7)
    } else {
        Ok(())
    }
}

/// The level that is entered in this step, if any.
#[inline]
pub fn interrupt(desk: &State) -> Option<u32> {
    if desk.status & KERNEL != 0 || desk.pending == 0 {
        return None;
    }
    let highest = desk.pending.ilog2();
    (highest > desk.status >> 4 & 15).then_some(highest)
}

/// Kernel entry by an interrupt.
#[cold]
pub fn interrupted(memory: &mut [u8], desk: &mut State, level: u32) {
    enter(memory, desk, 16 + level, level);
    if desk.stopped == RUNNING {
        desk.pending &= !(1 << level);
    }
}

/// Kernel entry with a cause, or stop 16.
#[cold]
pub fn enter(memory: &mut [u8], desk: &mut State, cause: u32, argument: u32) {
    let at = (desk.system_block + 8 * cause) as usize;
    let word = |i: usize| u32::from_be_bytes([memory[i], memory[i + 1], memory[i + 2], memory[i + 3]]);
    let (r15, status) = (word(at), word(at + 4));
    if status & KERNEL == 0 || status & !DEFINED != 0 {
        desk.stopped = 16;
        return;
    }
    let mut to = desk.control_block as usize;
    for value in desk.registers.into_iter().chain([desk.status, argument]) {
        memory[to..to + 4].copy_from_slice(&value.to_be_bytes());
        to += 4;
    }
    desk.registers[15] = r15;
    desk.status = status;
}
