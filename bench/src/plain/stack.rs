//! The stack: CALL, RET, PUSHR, POPR.

use super::memory::{bytes, store, value, write, READ};
use super::operand::address;
use super::Alarm;
use crate::state::State;

const SP: usize = 14;
/// The bytes of R0 to R14.
const ALL: usize = 60;

#[inline(never)]
pub fn call<const ONE_LOOKUP: bool>(memory: &mut [u8], desk: &mut State) -> Result<(), Alarm> {
    let to = address::<ONE_LOOKUP>(memory, desk, 1)?;
    desk.registers[SP] = desk.registers[SP].wrapping_sub(4);
    store::<ONE_LOOKUP, 4>(memory, desk, desk.registers[SP], desk.registers[15])?;
    desk.registers[15] = to;
    Ok(())
}

#[inline(never)]
pub fn ret<const ONE_LOOKUP: bool>(memory: &mut [u8], desk: &mut State) -> Result<(), Alarm> {
    desk.registers[15] = value::<ONE_LOOKUP, READ, 4>(memory, desk, desk.registers[SP])?;
    desk.registers[SP] = desk.registers[SP].wrapping_add(4);
    Ok(())
}

/// PUSHR: the word for SP is SP lowered once.
#[inline(never)]
pub fn push_all<const ONE_LOOKUP: bool>(memory: &mut [u8], desk: &mut State) -> Result<(), Alarm> {
    let old = desk.registers[SP];
    desk.registers[SP] = old.wrapping_sub(4);
    let mut all = [0; ALL];
    for (to, register) in all.chunks_exact_mut(4).zip(desk.registers) {
        to.copy_from_slice(&register.to_be_bytes());
    }
    desk.registers[SP] = old.wrapping_sub(ALL as u32);
    write::<ONE_LOOKUP, ALL>(memory, desk, desk.registers[SP], &all)
}

/// POPR: SP is the last word raised once.
#[inline(never)]
pub fn pop_all<const ONE_LOOKUP: bool>(memory: &mut [u8], desk: &mut State) -> Result<(), Alarm> {
    let all = bytes::<ONE_LOOKUP, READ, ALL>(memory, desk, desk.registers[SP])?;
    for (register, from) in desk.registers.iter_mut().zip(all.chunks_exact(4)) {
        *register = u32::from_be_bytes([from[0], from[1], from[2], from[3]]);
    }
    desk.registers[SP] = desk.registers[SP].wrapping_add(4);
    Ok(())
}
