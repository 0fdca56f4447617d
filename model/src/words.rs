//! The words of a state, as stored cases have them: 0 to 15 R0 to R15, 16
//! status, 17 pending set, 18 map base, 19 map length, 20 system block, 21
//! control block, 22 is 0 for running and 1 for stopped, 23 the number stopped
//! with (0 if running).
//!
//! A further word is a greater `WORDS` and one more item in each of the two
//! lists below. Changes of words are stored with a mask of 32 bits, so that
//! there is room for 32.

use crate::state::*;

/// How many words a state has.
pub const WORDS: usize = 24;
pub type Words = [u32; WORDS];

const _: () = assert!(WORDS <= u32::BITS as usize);

pub fn words(state: &State) -> Words {
    let (stopped, number) = match state.mark {
        Mark::Running => (0, 0),
        Mark::Stopped(number) => (1, number),
    };
    let State { registers, status, pending, map_base, map_length, system_block, control_block, .. } = *state;
    let others: [u32; WORDS - 16] =
        [status, u32::from(pending), map_base, map_length, system_block, control_block, stopped, number];
    let mut words = [0; WORDS];
    words[..16].copy_from_slice(&registers);
    words[16..].copy_from_slice(&others);
    words
}

pub fn state_of(words: &Words) -> State {
    let mut registers = [0; 16];
    let mut others = [0; WORDS - 16];
    registers.copy_from_slice(&words[..16]);
    others.copy_from_slice(&words[16..]);
    let [status, pending, map_base, map_length, system_block, control_block, stopped, number] = others;
    let mark = if stopped == 0 { Mark::Running } else { Mark::Stopped(number) };
    State { registers, status, pending: pending as u16, map_base, map_length, system_block, control_block, mark }
}
