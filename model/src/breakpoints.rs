//! Breakpoints (request F-3): the call `run_to`, a run that may be held before a chosen command.
//!
//! It is `run` with one question more before each step but the first. The list is only read.

use crate::checks::{self, must, Broken};
use crate::desk::one_step;
use crate::entry;
use crate::notes::Notes;
use crate::state::*;

/// How many breakpoints a list may have, armed or not.
pub const MOST_BREAKPOINTS: usize = 64;

/// Number 20.
pub fn few(points: &[Breakpoint]) -> Result<(), Broken> {
    must(points.len() <= MOST_BREAKPOINTS, 20, "more than 64 breakpoints")
}

/// As for a run 1 to 5 and 7; 20 is "tried after 7".
pub fn judge(state: &State, memory: &[u8], points: &[Breakpoint]) -> Result<(), Broken> {
    checks::of_step(state, memory)?;
    few(points)
}

/// The place, from 0, of the first armed breakpoint that equals R15.
pub fn first_armed(r15: u32, points: &[Breakpoint]) -> Option<u32> {
    let place = points.iter().position(|point| point.armed && point.r15 == r15);
    place.map(|place| place as u32)
}

/// The breakpoint that holds a running desk in this state. None does where an interrupt is due, for
/// the step then enters the kernel and runs no command.
pub fn hold(state: &State, points: &[Breakpoint]) -> Option<u32> {
    if entry::interrupt(state).is_some() {
        return None;
    }
    first_armed(state.registers[PC], points)
}

/// Up to `n` steps, ending after a stop or before a step that is held.
pub fn run_to(start: &State, memory: &mut [u8], n: u64, points: &[Breakpoint]) -> RanTo {
    if let Err(broken) = judge(start, memory, points) {
        return RanTo { refusal: broken.number, state: *start, count: 0, held: None };
    }
    let mut state = *start;
    let mut count = 0;
    let mut held = None;
    while count < n && !state.stopped() {
        // "Before every step but the first".
        if count > 0 {
            held = hold(&state, points);
        }
        if held.is_some() {
            break;
        }
        state = one_step(&mut Notes::none(), &state, memory).0;
        count += 1;
    }
    RanTo { refusal: 0, state, count, held }
}
