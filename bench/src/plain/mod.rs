//! The desk in plain Rust: a yardstick for the proved code, not a product.
//!
//! It is written as one would write it without proofs: one state that is changed in place, safe Rust with its bounds
//! checks, errors by `?`, one copy of the code for each size and operation. It comes in two kinds: with `ONE_LOOKUP` a
//! value, the six bytes of an operand, or the 60 bytes of PUSHR and POPR, that lie in one page are looked up once;
//! without it every byte is looked up by itself, as document 01 words it.
//!
//! Covered, with the same results as the proved desk:
//! - MOVE, CMP, and OR, ANDNOT, XOR, ADD, SUB, MULT with two and three operands, in B, H and W; SH;
//! - the floating commands 80h to A5h, F and D (`floats.rs`);
//! - the jumps 70h to 78h, CALL, RET, PUSHR, POPR and HALT;
//! - the nine forms with their rules (14), R15 inside an operand, flags;
//! - the map and alarms 8 to 13 and 21, the undoing of a command that alarms;
//! - refusals 1 to 5 and 7, interrupts, kernel entry and stop 16, the step count;
//! - runs with breakpoints (`breakpoints.rs`);
//! - load lists with their refusals (`load.rs`), and two of them together (`load_both.rs`).
//!
//! Not covered: every other command (it gives alarm 12, as an unknown byte does), the system call and RESUME among them;
//! the calls for a fresh desk and for a level.
#![forbid(unsafe_code)]

mod arithmetic;
mod breakpoints;
mod command;
mod entry;
mod floats;
mod load;
mod load_both;
mod memory;
mod operand;
mod stack;

use crate::state::{State, KERNEL, RUNNING};

pub use breakpoints::run_to;
#[cfg(test)]
pub use command::covers;
pub use load::load;
pub use load_both::load_both;

/// An alarm's number and argument.
#[derive(Clone, Copy, PartialEq, Eq, Debug)]
pub struct Alarm(u32, u32);

impl Alarm {
    /// The cause of its kernel entry: its number, but of 21, which is the cause of an interrupt.
    fn cause(self) -> u32 {
        match self.0 {
            21 => 2,
            number => number,
        }
    }
}

/// At most `n` steps: their count, or the number of the refusal.
#[inline(never)]
pub fn run<const ONE_LOOKUP: bool>(memory: &mut [u8], desk: &mut State, n: u64) -> Result<u64, u32> {
    entry::refusal(memory, desk)?;
    let mut steps = 0;
    while steps < n && desk.stopped == RUNNING {
        step::<ONE_LOOKUP, false>(memory, desk);
        steps += 1;
    }
    Ok(steps)
}

/// One step. Runs with breakpoints and runs without have a copy each, which the compiler then puts in line.
fn step<const ONE_LOOKUP: bool, const BREAKPOINTS: bool>(memory: &mut [u8], desk: &mut State) {
    if let Some(level) = entry::interrupt(desk) {
        return entry::interrupted(memory, desk, level);
    }
    // Flags are set last, so an alarm has only registers to undo.
    let registers = desk.registers;
    if let Err(alarm) = command::command::<ONE_LOOKUP>(memory, desk) {
        desk.registers = registers;
        if desk.status & KERNEL != 0 {
            desk.stopped = alarm.0;
        } else {
            entry::enter(memory, desk, alarm.cause(), alarm.1);
        }
    }
}
