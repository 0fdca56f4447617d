//! One command: byte, mode, operands, operation, write, flags.

use super::arithmetic::{compare, operate, Outcome, C, N, V, Z};
use super::arithmetic::{ADD, ANDNOT, DIV, MULT, OR, SH, SUB, XOR};
use super::memory::{byte, FETCH};
use super::operand::{address, target, value};
use super::{floats, stack, Alarm};
use crate::state::{State, KERNEL};

const HALT: u8 = 0x00;
const PUSHR: u8 = 0x01;
const POPR: u8 = 0x02;
const CALL: u8 = 0x79;
const RET: u8 = 0x7A;

/// Whether the command of this byte is covered.
#[cfg(test)]
pub fn covers(byte: u8) -> bool {
    match byte {
        HALT | PUSHR | POPR | 0x10..=0x12 | SH | 0x64..=0x66 | 0x70..=0x78 | CALL | RET => true,
        0x28..=0x57 => byte % 4 != 3,
        0x80..=0xA5 => byte % 4 < 2,
        _ => false,
    }
}

/// MOVE.
#[inline(never)]
fn copy<const ONE_LOOKUP: bool, const SIZE: usize>(memory: &mut [u8], desk: &mut State) -> Result<(), Alarm> {
    let a = value::<ONE_LOOKUP, SIZE>(memory, desk, 1)?;
    let target = target::<ONE_LOOKUP, SIZE>(memory, desk, 2)?;
    target.write::<ONE_LOOKUP, SIZE>(memory, desk, a)?;
    Outcome::of::<SIZE>(a).set_flags(desk);
    Ok(())
}

/// CMP.
#[inline(never)]
fn cmp<const ONE_LOOKUP: bool, const SIZE: usize>(memory: &mut [u8], desk: &mut State) -> Result<(), Alarm> {
    let a = value::<ONE_LOOKUP, SIZE>(memory, desk, 1)?;
    let b = value::<ONE_LOOKUP, SIZE>(memory, desk, 2)?;
    compare::<SIZE>(desk, a, b);
    Ok(())
}

/// OR, ANDNOT, XOR, ADD, SUB, MULT: value, update.
#[inline(never)]
fn two<const ONE_LOOKUP: bool, const SIZE: usize, const OPERATION: u8>(
    memory: &mut [u8],
    desk: &mut State,
) -> Result<(), Alarm> {
    let a = value::<ONE_LOOKUP, SIZE>(memory, desk, 1)?;
    let target = target::<ONE_LOOKUP, SIZE>(memory, desk, 2)?;
    let b = target.read::<ONE_LOOKUP, SIZE>(memory, desk)?;
    let outcome = operate::<SIZE, OPERATION>(a, b);
    target.write::<ONE_LOOKUP, SIZE>(memory, desk, outcome.value::<SIZE>())?;
    outcome.set_flags(desk);
    Ok(())
}

/// The same and SH: value, value, destination.
#[inline(never)]
fn three<const ONE_LOOKUP: bool, const SIZE: usize, const OPERATION: u8>(
    memory: &mut [u8],
    desk: &mut State,
) -> Result<(), Alarm> {
    let a = value::<ONE_LOOKUP, SIZE>(memory, desk, 1)?;
    let b = value::<ONE_LOOKUP, SIZE>(memory, desk, 2)?;
    let target = target::<ONE_LOOKUP, SIZE>(memory, desk, 3)?;
    let outcome = operate::<SIZE, OPERATION>(a, b);
    target.write::<ONE_LOOKUP, SIZE>(memory, desk, outcome.value::<SIZE>())?;
    outcome.set_flags(desk);
    Ok(())
}

#[inline(always)]
pub fn command<const ONE_LOOKUP: bool>(memory: &mut [u8], desk: &mut State) -> Result<(), Alarm> {
    let start = desk.registers[15];
    let code = byte::<FETCH>(memory, desk, start)?;
    desk.registers[15] = start.wrapping_add(1);
    match code {
        HALT if desk.status & KERNEL == 0 => Err(Alarm(13, 0)),
        HALT => {
            desk.stopped = 0;
            Ok(())
        }
        PUSHR => stack::push_all::<ONE_LOOKUP>(memory, desk),
        POPR => stack::pop_all::<ONE_LOOKUP>(memory, desk),
        0x10 => copy::<ONE_LOOKUP, 1>(memory, desk),
        0x11 => copy::<ONE_LOOKUP, 2>(memory, desk),
        0x12 => copy::<ONE_LOOKUP, 4>(memory, desk),
        0x28 => two::<ONE_LOOKUP, 1, OR>(memory, desk),
        0x29 => two::<ONE_LOOKUP, 2, OR>(memory, desk),
        0x2A => two::<ONE_LOOKUP, 4, OR>(memory, desk),
        0x2C => three::<ONE_LOOKUP, 1, OR>(memory, desk),
        0x2D => three::<ONE_LOOKUP, 2, OR>(memory, desk),
        0x2E => three::<ONE_LOOKUP, 4, OR>(memory, desk),
        0x30 => two::<ONE_LOOKUP, 1, ANDNOT>(memory, desk),
        0x31 => two::<ONE_LOOKUP, 2, ANDNOT>(memory, desk),
        0x32 => two::<ONE_LOOKUP, 4, ANDNOT>(memory, desk),
        0x34 => three::<ONE_LOOKUP, 1, ANDNOT>(memory, desk),
        0x35 => three::<ONE_LOOKUP, 2, ANDNOT>(memory, desk),
        0x36 => three::<ONE_LOOKUP, 4, ANDNOT>(memory, desk),
        0x38 => two::<ONE_LOOKUP, 1, XOR>(memory, desk),
        0x39 => two::<ONE_LOOKUP, 2, XOR>(memory, desk),
        0x3A => two::<ONE_LOOKUP, 4, XOR>(memory, desk),
        0x3C => three::<ONE_LOOKUP, 1, XOR>(memory, desk),
        0x3D => three::<ONE_LOOKUP, 2, XOR>(memory, desk),
        0x3E => three::<ONE_LOOKUP, 4, XOR>(memory, desk),
        0x40 => two::<ONE_LOOKUP, 1, ADD>(memory, desk),
        0x41 => two::<ONE_LOOKUP, 2, ADD>(memory, desk),
        0x42 => two::<ONE_LOOKUP, 4, ADD>(memory, desk),
        0x44 => three::<ONE_LOOKUP, 1, ADD>(memory, desk),
        0x45 => three::<ONE_LOOKUP, 2, ADD>(memory, desk),
        0x46 => three::<ONE_LOOKUP, 4, ADD>(memory, desk),
        0x48 => two::<ONE_LOOKUP, 1, SUB>(memory, desk),
        0x49 => two::<ONE_LOOKUP, 2, SUB>(memory, desk),
        0x4A => two::<ONE_LOOKUP, 4, SUB>(memory, desk),
        0x4C => three::<ONE_LOOKUP, 1, SUB>(memory, desk),
        0x4D => three::<ONE_LOOKUP, 2, SUB>(memory, desk),
        0x4E => three::<ONE_LOOKUP, 4, SUB>(memory, desk),
        0x50 => two::<ONE_LOOKUP, 1, MULT>(memory, desk),
        0x51 => two::<ONE_LOOKUP, 2, MULT>(memory, desk),
        0x52 => two::<ONE_LOOKUP, 4, MULT>(memory, desk),
        0x54 => three::<ONE_LOOKUP, 1, MULT>(memory, desk),
        0x55 => three::<ONE_LOOKUP, 2, MULT>(memory, desk),
        0x56 => three::<ONE_LOOKUP, 4, MULT>(memory, desk),
        SH => three::<ONE_LOOKUP, 4, SH>(memory, desk),
        0x64 => cmp::<ONE_LOOKUP, 1>(memory, desk),
        0x65 => cmp::<ONE_LOOKUP, 2>(memory, desk),
        0x66 => cmp::<ONE_LOOKUP, 4>(memory, desk),
        0x70..=0x78 => {
            let address = address::<ONE_LOOKUP>(memory, desk, 1)?;
            if taken(code, desk.status) {
                desk.registers[15] = address;
            }
            Ok(())
        }
        CALL => stack::call::<ONE_LOOKUP>(memory, desk),
        RET => stack::ret::<ONE_LOOKUP>(memory, desk),
        0x80 => floats::two::<ONE_LOOKUP, 4, ADD>(memory, desk),
        0x81 => floats::two::<ONE_LOOKUP, 8, ADD>(memory, desk),
        0x84 => floats::three::<ONE_LOOKUP, 4, ADD>(memory, desk),
        0x85 => floats::three::<ONE_LOOKUP, 8, ADD>(memory, desk),
        0x88 => floats::two::<ONE_LOOKUP, 4, SUB>(memory, desk),
        0x89 => floats::two::<ONE_LOOKUP, 8, SUB>(memory, desk),
        0x8C => floats::three::<ONE_LOOKUP, 4, SUB>(memory, desk),
        0x8D => floats::three::<ONE_LOOKUP, 8, SUB>(memory, desk),
        0x90 => floats::two::<ONE_LOOKUP, 4, MULT>(memory, desk),
        0x91 => floats::two::<ONE_LOOKUP, 8, MULT>(memory, desk),
        0x94 => floats::three::<ONE_LOOKUP, 4, MULT>(memory, desk),
        0x95 => floats::three::<ONE_LOOKUP, 8, MULT>(memory, desk),
        0x98 => floats::two::<ONE_LOOKUP, 4, DIV>(memory, desk),
        0x99 => floats::two::<ONE_LOOKUP, 8, DIV>(memory, desk),
        0x9C => floats::three::<ONE_LOOKUP, 4, DIV>(memory, desk),
        0x9D => floats::three::<ONE_LOOKUP, 8, DIV>(memory, desk),
        0xA0 => floats::copy::<ONE_LOOKUP, 4>(memory, desk),
        0xA1 => floats::copy::<ONE_LOOKUP, 8>(memory, desk),
        0xA4 => floats::cmp::<ONE_LOOKUP, 4>(memory, desk),
        0xA5 => floats::cmp::<ONE_LOOKUP, 8>(memory, desk),
        _ => Err(Alarm(12, u32::from(code))),
    }
}

/// Whether the jump 70h to 78h is taken at this status.
fn taken(code: u8, status: u32) -> bool {
    match code {
        0x70 => true,
        0x71 => status & Z != 0,
        0x72 => status & Z == 0,
        0x73 => status & (N | Z) == 0,
        0x74 => status & N == 0,
        0x75 => status & N != 0,
        0x76 => status & (N | Z) != 0,
        0x77 => status & V != 0,
        _ => status & C != 0,
    }
}
