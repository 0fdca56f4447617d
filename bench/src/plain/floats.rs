//! Floating commands (F-6): F has 4 bytes and D has 8, and both are IEEE numbers.
//!
//! A number of `SIZE` bytes (4 or 8) travels by its bits, which MOVE keeps.

use super::arithmetic::{set_flags, ADD, MULT, SUB};
use super::memory::{self, bytes, READ};
use super::operand::{self, Place};
use super::Alarm;
use crate::state::State;
use std::cmp::Ordering;
use std::ops::{Add, Div, Mul, Sub};

/// The bits of every NaN that is a result.
const NAN_F: u32 = 0x7FC0_0000;
const NAN_D: u64 = 0x7FF8_0000_0000_0000;

/// The next operand's place. 14 also where form 2 has no register for each word of the number before R15; form 1 has no
/// D at all.
#[inline(always)]
fn place<const ONE_LOOKUP: bool, const SIZE: usize>(
    memory: &[u8],
    desk: &mut State,
    number: u32,
) -> Result<Place, Alarm> {
    match operand::place::<ONE_LOOKUP, SIZE>(memory, desk, number)? {
        Place::Register(x) if x + SIZE / 4 > 15 => Err(Alarm(14, number)),
        place => Ok(place),
    }
}

/// The next operand's value.
#[inline(always)]
fn value<const ONE_LOOKUP: bool, const SIZE: usize>(
    memory: &[u8],
    desk: &mut State,
    number: u32,
) -> Result<u64, Alarm> {
    let place = place::<ONE_LOOKUP, SIZE>(memory, desk, number)?;
    read::<ONE_LOOKUP, SIZE>(memory, desk, place)
}

/// The next operand as a place to write to: not form 1.
#[inline(always)]
fn target<const ONE_LOOKUP: bool, const SIZE: usize>(
    memory: &[u8],
    desk: &mut State,
    number: u32,
) -> Result<Place, Alarm> {
    match place::<ONE_LOOKUP, SIZE>(memory, desk, number)? {
        Place::Value(_) => Err(Alarm(14, number)),
        target => Ok(target),
    }
}

/// The bits of the number at a place; D in register x has its low word in x + 1.
#[inline(always)]
fn read<const ONE_LOOKUP: bool, const SIZE: usize>(memory: &[u8], desk: &State, place: Place) -> Result<u64, Alarm> {
    let register = |x: usize| u64::from(desk.registers[x]);
    Ok(match place {
        Place::Value(z) => u64::from(z),
        Place::Register(x) if SIZE == 4 => register(x),
        Place::Register(x) => register(x) << 32 | register(x + 1),
        Place::At(address) if SIZE == 4 => u64::from(memory::value::<ONE_LOOKUP, READ, 4>(memory, desk, address)?),
        Place::At(address) => u64::from_be_bytes(bytes::<ONE_LOOKUP, READ, 8>(memory, desk, address)?),
    })
}

#[inline(always)]
fn write<const ONE_LOOKUP: bool, const SIZE: usize>(
    memory: &mut [u8],
    desk: &mut State,
    place: Place,
    bits: u64,
) -> Result<(), Alarm> {
    match place {
        Place::Value(_) => {}
        Place::Register(x) if SIZE == 4 => desk.registers[x] = bits as u32,
        Place::Register(x) => {
            desk.registers[x] = (bits >> 32) as u32;
            desk.registers[x + 1] = bits as u32;
        }
        Place::At(address) if SIZE == 4 => memory::store::<ONE_LOOKUP, 4>(memory, desk, address, bits as u32)?,
        Place::At(address) => memory::write::<ONE_LOOKUP, 8>(memory, desk, address, &bits.to_be_bytes())?,
    }
    Ok(())
}

/// The bits of the operation's result, b being the second operand.
#[inline(always)]
fn operate<const SIZE: usize, const OPERATION: u8>(a: u64, b: u64) -> u64 {
    if SIZE == 4 {
        let result = result::<f32, OPERATION>(f32::from_bits(a as u32), f32::from_bits(b as u32));
        u64::from(if result.is_nan() { NAN_F } else { result.to_bits() })
    } else {
        let result = result::<f64, OPERATION>(f64::from_bits(a), f64::from_bits(b));
        if result.is_nan() {
            NAN_D
        } else {
            result.to_bits()
        }
    }
}

#[inline(always)]
fn result<T, const OPERATION: u8>(a: T, b: T) -> T
where
    T: Add<Output = T> + Sub<Output = T> + Mul<Output = T> + Div<Output = T>,
{
    match OPERATION {
        ADD => b + a,
        SUB => b - a,
        MULT => b * a,
        _ => b / a,
    }
}

/// The flags of a number. Without its sign it is below the bits of the infinite one where it is finite, above them where
/// it is a NaN.
#[inline(always)]
fn set_flags_of<const SIZE: usize>(desk: &mut State, bits: u64) {
    let infinite = if SIZE == 4 { u64::from(f32::INFINITY.to_bits()) } else { f64::INFINITY.to_bits() };
    let sign = 1 << (8 * SIZE - 1);
    let size = bits & !sign;
    let n = bits & sign != 0 && size != 0 && size <= infinite;
    set_flags(desk, n, size == 0, size >= infinite, false);
}

/// MOVE.
#[inline(never)]
pub fn copy<const ONE_LOOKUP: bool, const SIZE: usize>(memory: &mut [u8], desk: &mut State) -> Result<(), Alarm> {
    let a = value::<ONE_LOOKUP, SIZE>(memory, desk, 1)?;
    let target = target::<ONE_LOOKUP, SIZE>(memory, desk, 2)?;
    write::<ONE_LOOKUP, SIZE>(memory, desk, target, a)?;
    set_flags_of::<SIZE>(desk, a);
    Ok(())
}

/// CMP: with a NaN the numbers have no order.
#[inline(never)]
pub fn cmp<const ONE_LOOKUP: bool, const SIZE: usize>(memory: &mut [u8], desk: &mut State) -> Result<(), Alarm> {
    let a = value::<ONE_LOOKUP, SIZE>(memory, desk, 1)?;
    let b = value::<ONE_LOOKUP, SIZE>(memory, desk, 2)?;
    let order = if SIZE == 4 {
        f32::from_bits(a as u32).partial_cmp(&f32::from_bits(b as u32))
    } else {
        f64::from_bits(a).partial_cmp(&f64::from_bits(b))
    };
    set_flags(desk, order == Some(Ordering::Less), order == Some(Ordering::Equal), order.is_none(), false);
    Ok(())
}

/// ADD, SUB, MULT, DIV: value, update.
#[inline(never)]
pub fn two<const ONE_LOOKUP: bool, const SIZE: usize, const OPERATION: u8>(
    memory: &mut [u8],
    desk: &mut State,
) -> Result<(), Alarm> {
    let a = value::<ONE_LOOKUP, SIZE>(memory, desk, 1)?;
    let target = target::<ONE_LOOKUP, SIZE>(memory, desk, 2)?;
    let b = read::<ONE_LOOKUP, SIZE>(memory, desk, target)?;
    let result = operate::<SIZE, OPERATION>(a, b);
    write::<ONE_LOOKUP, SIZE>(memory, desk, target, result)?;
    set_flags_of::<SIZE>(desk, result);
    Ok(())
}

/// The same: value, value, destination.
#[inline(never)]
pub fn three<const ONE_LOOKUP: bool, const SIZE: usize, const OPERATION: u8>(
    memory: &mut [u8],
    desk: &mut State,
) -> Result<(), Alarm> {
    let a = value::<ONE_LOOKUP, SIZE>(memory, desk, 1)?;
    let b = value::<ONE_LOOKUP, SIZE>(memory, desk, 2)?;
    let target = target::<ONE_LOOKUP, SIZE>(memory, desk, 3)?;
    let result = operate::<SIZE, OPERATION>(a, b);
    write::<ONE_LOOKUP, SIZE>(memory, desk, target, result)?;
    set_flags_of::<SIZE>(desk, result);
    Ok(())
}
