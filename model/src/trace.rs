//! What the program `trace` prints ("Tried values").

use crate::desk::{fresh, step};
use crate::state::*;

pub const LIMIT: usize = 65_536;
pub const STEPS: u32 = 1_000;

/// The lines for an input.
pub fn trace(input: &[u8]) -> String {
    if input.len() > LIMIT {
        return "1\n".to_string();
    }
    let length = input.len().div_ceil(512).max(1) * 512;
    let mut memory = vec![0; length];
    memory[..input.len()].copy_from_slice(input);
    let mut state = fresh(length as u64, 0, 256, 512).state;
    let mut lines = String::new();
    for number in 1..=STEPS {
        state = step(&state, &mut memory).state;
        lines += &format!("{} {:08X} {:08X}\n", number, state.registers[PC], state.status);
        if let Mark::Stopped(stop) = state.mark {
            lines += &format!("stop {}\n", stop);
            return lines;
        }
    }
    lines + "end\n"
}
