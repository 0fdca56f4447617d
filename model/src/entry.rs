//! Kernel entry, interrupts and stops ("One step", "Numbers 1 to 16", and 21 of request F-4).

use crate::checks;
use crate::map::{put, word, Real};
use crate::notes::{Note, Notes};
use crate::state::*;

/// R0 to R15, status and argument, as an entry writes them.
fn saved_bytes(state: &State, argument: u32) -> [u8; SAVED_BYTES] {
    let mut bytes = [0; SAVED_BYTES];
    for i in 0..16 {
        bytes[4 * i..4 * i + 4].copy_from_slice(&state.registers[i].to_be_bytes());
    }
    bytes[64..68].copy_from_slice(&state.status.to_be_bytes());
    bytes[68..72].copy_from_slice(&argument.to_be_bytes());
    bytes
}

fn save(address: u32, bytes: &[u8], memory: &mut [u8]) {
    for (i, byte) in bytes.iter().enumerate() {
        put(memory, Real(address.wrapping_add(i as u32)), *byte);
    }
}

/// Stops with a number, all else as in `state`.
pub fn stop(state: &State, number: u32) -> (State, Event) {
    (State { mark: Mark::Stopped(number), ..*state }, Event::Stop(number))
}

/// The cause of an alarm: its number, and 2 for alarm 21 (21 is the cause of level 5).
pub fn cause_of(alarm: u32) -> u32 {
    match alarm {
        21 => 2,
        number => number,
    }
}

/// Enters the kernel with a cause. `start` is the state before the step,
/// `saved` the one to be saved (they differ after a system call, and in the
/// pending bit of an interrupt).
pub fn enter(
    notes: &mut Notes,
    start: &State,
    saved: &State,
    cause: u32,
    argument: u32,
    memory: &mut [u8],
) -> (State, Event) {
    // The entry is read before anything is written.
    let entry = start.system_block.wrapping_add(8 * cause);
    let r15 = word(memory, Real(entry));
    let status = word(memory, Real(entry.wrapping_add(4)));
    if let Err(broken) = checks::kernel_status(status) {
        notes.add(Note::BadEntry { cause, reason: broken.reason });
        return stop(start, 16);
    }
    let bytes = saved_bytes(saved, argument);
    save(start.control_block, &bytes, memory);
    let mut state = *saved;
    state.registers[PC] = r15;
    state.status = status;
    (state, Event::Entry { cause, saved: bytes })
}

/// The level that an interrupt enters in this step, if any: the highest
/// pending level, in user mode, above the status level.
pub fn interrupt(state: &State) -> Option<u32> {
    if state.kernel() {
        return None;
    }
    let level = state.highest_pending()?;
    (level > state.level()).then_some(level)
}

/// Enters by an interrupt; its pending bit is cleared.
pub fn interrupted(notes: &mut Notes, start: &State, level: u32, memory: &mut [u8]) -> (State, Event) {
    let mut saved = *start;
    saved.pending &= !(1u16 << level);
    enter(notes, start, &saved, 16 + level, level, memory)
}
