//! The calls: fresh desk, step, run, level request ("One step").

use crate::checks;
use crate::commands::{command, Done};
use crate::entry;
use crate::map::put;
use crate::notes::{Note, Notes};
use crate::state::*;
use crate::work::Work;

/// A fresh desk: zero registers but R15, kernel mode, level 0, no map.
pub fn fresh(memory_length: u64, system_block: u32, control_block: u32, start: u32) -> Answered {
    if let Err(broken) = checks::of_fresh(memory_length, system_block, control_block) {
        return Answered { refusal: broken.number, state: State::zero(broken.number) };
    }
    let mut state = State::zero(0);
    state.registers[PC] = start;
    state.status = KERNEL;
    state.system_block = system_block;
    state.control_block = control_block;
    state.mark = Mark::Running;
    Answered { refusal: 0, state }
}

/// Asks for an interrupt of a level.
pub fn request(state: &State, level: u32) -> Answered {
    let mut state = *state;
    if let Err(broken) = checks::of_request(&state, level) {
        return Answered { refusal: broken.number, state };
    }
    state.pending |= 1 << level;
    Answered { refusal: 0, state }
}

/// One step.
pub fn step(state: &State, memory: &mut [u8]) -> Stepped {
    step_noting(&mut Notes::none(), state, memory)
}

/// One step, with remarks for the coverage table.
pub fn step_noting(notes: &mut Notes, state: &State, memory: &mut [u8]) -> Stepped {
    if let Err(broken) = checks::of_step(state, memory) {
        return Stepped { refusal: broken.number, state: *state, event: Event::Plain };
    }
    let (state, event) = one_step(notes, state, memory);
    Stepped { refusal: 0, state, event }
}

/// Up to `n` steps, ending after a stop.
pub fn run(state: &State, memory: &mut [u8], n: u64) -> Ran {
    if let Err(broken) = checks::of_step(state, memory) {
        return Ran { refusal: broken.number, state: *state, count: 0 };
    }
    let mut state = *state;
    let mut count = 0;
    while count < n && !state.stopped() {
        state = one_step(&mut Notes::none(), &state, memory).0;
        count += 1;
    }
    Ran { refusal: 0, state, count }
}

/// One step of a running desk that has passed 1 to 5.
pub fn one_step(notes: &mut Notes, start: &State, memory: &mut [u8]) -> (State, Event) {
    if let Some(level) = entry::interrupt(start) {
        return entry::interrupted(notes, start, level, memory);
    }
    let mut work = Work::new(notes, start, memory);
    let done = command(&mut work);
    let Work { now, writes, .. } = work;
    match done {
        Ok(Done::Next) => {
            for (real, byte) in writes {
                put(memory, real, byte);
            }
            (now, Event::Plain)
        }
        Ok(Done::Halt) => entry::stop(&now, 0),
        Ok(Done::SystemCall(value)) => entry::enter(notes, start, &now, 1, value, memory),
        // The command's changes of registers and its writes are dropped.
        Err(alarm) => {
            notes.add(Note::Alarm { number: alarm.number, part: alarm.part });
            if start.kernel() {
                entry::stop(start, alarm.number)
            } else {
                let cause = entry::cause_of(alarm.number);
                entry::enter(notes, start, start, cause, alarm.argument, memory)
            }
        }
    }
}
