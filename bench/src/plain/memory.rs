//! Map lookup, reads, fetches and stores.

use super::Alarm;
use crate::state::{State, KERNEL};

const PAGE: u32 = 512;
const PRESENT: u32 = 0x8000_0000;
const WRITABLE: u32 = 0x4000_0000;
const NO_FETCH: u32 = 0x2000_0000;
const FORBIDDEN: u32 = 0x1F00_0000;
const FRAME: u32 = 0x00FF_FFFF;

/// Why a byte is wanted: as a command byte or one of an operand's six, to be read, to be written.
pub const FETCH: u8 = 0;
pub const READ: u8 = 1;
const WRITE: u8 = 2;

/// The place in memory of one byte, or alarm 8 to 11 or 21.
#[inline(always)]
fn lookup<const WHY: u8>(memory: &[u8], desk: &State, address: u32) -> Result<usize, Alarm> {
    if desk.status & KERNEL != 0 {
        let place = address as usize;
        return if place < memory.len() { Ok(place) } else { Err(Alarm(8, address)) };
    }
    let page = address / PAGE;
    if page >= desk.map_length {
        return Err(Alarm(8, address));
    }
    let at = desk.map_base as usize + 4 * page as usize;
    let entry = match memory.get(at..at + 4) {
        Some(b) => u32::from_be_bytes([b[0], b[1], b[2], b[3]]),
        None => 0,
    };
    if entry & PRESENT == 0 {
        return Err(Alarm(9, address));
    }
    let place = (entry & FRAME) as usize * PAGE as usize + (address % PAGE) as usize;
    // A fetch tests its bit together with the forbidden ones: 10 and 21 are told apart only when it is refused.
    let refused = if WHY == FETCH { FORBIDDEN | NO_FETCH } else { FORBIDDEN };
    if entry & refused != 0 || place >= memory.len() {
        let damaged = entry & FORBIDDEN != 0 || place >= memory.len();
        return Err(Alarm(if damaged { 10 } else { 21 }, address));
    }
    if WHY == WRITE && entry & WRITABLE == 0 {
        return Err(Alarm(11, address));
    }
    Ok(place)
}

/// Whether `COUNT` bytes from `address` lie in one page.
#[inline(always)]
fn in_page<const COUNT: usize>(address: u32) -> bool {
    address % PAGE <= PAGE - COUNT as u32
}

#[inline(always)]
pub fn byte<const WHY: u8>(memory: &[u8], desk: &State, address: u32) -> Result<u8, Alarm> {
    Ok(memory[lookup::<WHY>(memory, desk, address)?])
}

/// The bytes from an address on: a value, an operand's word, the stack.
#[inline(always)]
pub fn bytes<const ONE_LOOKUP: bool, const WHY: u8, const COUNT: usize>(
    memory: &[u8],
    desk: &State,
    address: u32,
) -> Result<[u8; COUNT], Alarm> {
    if ONE_LOOKUP && in_page::<COUNT>(address) {
        let place = lookup::<WHY>(memory, desk, address)?;
        if let Some(bytes) = memory.get(place..).and_then(<[u8]>::first_chunk) {
            return Ok(*bytes);
        }
    }
    let mut bytes = [0; COUNT];
    for (i, to) in (0..).zip(&mut bytes) {
        *to = byte::<WHY>(memory, desk, address.wrapping_add(i))?;
    }
    Ok(bytes)
}

/// A value of `SIZE` bytes: 1, 2 or 4.
#[inline(always)]
pub fn value<const ONE_LOOKUP: bool, const WHY: u8, const SIZE: usize>(
    memory: &[u8],
    desk: &State,
    address: u32,
) -> Result<u32, Alarm> {
    let bytes = bytes::<ONE_LOOKUP, WHY, SIZE>(memory, desk, address)?;
    Ok(match SIZE {
        1 => u32::from(bytes[0]),
        2 => u32::from(u16::from_be_bytes([bytes[0], bytes[1]])),
        _ => u32::from_be_bytes([bytes[0], bytes[1], bytes[2], bytes[3]]),
    })
}

/// The six bytes of an operand: form, register pair and word.
#[inline(always)]
pub fn fields<const ONE_LOOKUP: bool>(memory: &[u8], desk: &State, address: u32) -> Result<(u8, u8, u32), Alarm> {
    if ONE_LOOKUP && in_page::<6>(address) {
        let place = lookup::<FETCH>(memory, desk, address)?;
        if let Some(b) = memory.get(place..place + 6) {
            return Ok((b[0], b[1], u32::from_be_bytes([b[2], b[3], b[4], b[5]])));
        }
    }
    let form = byte::<FETCH>(memory, desk, address)?;
    let pair = byte::<FETCH>(memory, desk, address.wrapping_add(1))?;
    Ok((form, pair, value::<ONE_LOOKUP, FETCH, 4>(memory, desk, address.wrapping_add(2))?))
}

/// Writes bytes: all are looked up before the first is written.
#[inline(always)]
pub fn write<const ONE_LOOKUP: bool, const COUNT: usize>(
    memory: &mut [u8],
    desk: &State,
    address: u32,
    bytes: &[u8; COUNT],
) -> Result<(), Alarm> {
    if ONE_LOOKUP && in_page::<COUNT>(address) {
        let place = lookup::<WRITE>(memory, desk, address)?;
        if let Some(to) = memory.get_mut(place..).and_then(<[u8]>::first_chunk_mut) {
            *to = *bytes;
            return Ok(());
        }
    }
    let mut places = [0; COUNT];
    for (i, place) in (0..).zip(&mut places) {
        *place = lookup::<WRITE>(memory, desk, address.wrapping_add(i))?;
    }
    for (place, byte) in places.into_iter().zip(bytes) {
        memory[place] = *byte;
    }
    Ok(())
}

/// Writes the low `SIZE` bytes of a value: 1, 2 or 4.
#[inline(always)]
pub fn store<const ONE_LOOKUP: bool, const SIZE: usize>(
    memory: &mut [u8],
    desk: &State,
    address: u32,
    value: u32,
) -> Result<(), Alarm> {
    let [b0, b1, b2, b3] = value.to_be_bytes();
    match SIZE {
        1 => write::<ONE_LOOKUP, 1>(memory, desk, address, &[b3]),
        2 => write::<ONE_LOOKUP, 2>(memory, desk, address, &[b2, b3]),
        _ => write::<ONE_LOOKUP, 4>(memory, desk, address, &[b0, b1, b2, b3]),
    }
}
