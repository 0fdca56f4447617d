//! The map ("Map" in document 01): the only way from a virtual address to a real one.

use crate::state::*;

/// An address as a command uses it.
#[derive(Clone, Copy, PartialEq, Eq, Debug)]
pub struct Virtual(pub u32);
/// A place in the desk's memory.
#[derive(Clone, Copy, PartialEq, Eq, Debug)]
pub struct Real(pub u32);
/// A frame number.
#[derive(Clone, Copy, PartialEq, Eq, Debug)]
pub struct Frame(pub u32);

/// Why a byte is wanted.
#[derive(Clone, Copy, PartialEq, Eq, PartialOrd, Ord, Debug)]
pub enum Reason {
    /// It is the command byte or one of an operand's six bytes.
    Fetch,
    /// A command reads it: an indirect word, a value, the stack.
    Read,
    /// A command writes it.
    Write,
}

/// One byte. Past the memory, where no desk that passed 1 to 4 looks, it is 0.
pub fn get(memory: &[u8], address: Real) -> u8 {
    memory.get(address.0 as usize).copied().unwrap_or(0)
}

pub fn put(memory: &mut [u8], address: Real, byte: u8) {
    if let Some(place) = memory.get_mut(address.0 as usize) {
        *place = byte;
    }
}

/// The word at a real address, highest byte first (000, 1.2).
pub fn word(memory: &[u8], address: Real) -> u32 {
    let mut value = 0;
    for i in 0..4 {
        value = value << 8 | u32::from(get(memory, Real(address.0.wrapping_add(i))));
    }
    value
}

pub const PRESENT: u32 = 0x8000_0000;
pub const WRITABLE: u32 = 0x4000_0000;
/// A page without commands: nothing is fetched there (request F-4).
pub const DATA: u32 = 0x2000_0000;
pub const FORBIDDEN: u32 = 0x1F00_0000;
pub const FRAME: u32 = 0x00FF_FFFF;

/// The entry of an address's page, or `None` at or past the map length.
pub fn entry_at(state: &State, memory: &[u8], address: Virtual) -> Option<u32> {
    let page = address.0 / FRAME_BYTES;
    if page >= state.map_length {
        return None;
    }
    Some(word(memory, Real(state.map_base.wrapping_add(page.wrapping_mul(4)))))
}

/// The real place of one byte, or a number: 8, 9 and 10 in this order whatever it is wanted for,
/// then 11 for a write, 21 for a fetch.
pub fn lookup(state: &State, memory: &[u8], address: Virtual, reason: Reason) -> Result<Real, u32> {
    let length = memory.len() as u64;
    if state.kernel() {
        return if u64::from(address.0) < length { Ok(Real(address.0)) } else { Err(8) };
    }
    let entry = entry_at(state, memory, address).ok_or(8u32)?;
    let frame = Frame(entry & FRAME);
    let start = u64::from(frame.0) * u64::from(FRAME_BYTES);
    if entry & PRESENT == 0 {
        return Err(9);
    }
    if entry & FORBIDDEN != 0 || start >= length {
        return Err(10);
    }
    if reason == Reason::Write && entry & WRITABLE == 0 {
        return Err(11);
    }
    if reason == Reason::Fetch && entry & DATA != 0 {
        return Err(21);
    }
    Ok(Real(frame.0.wrapping_mul(FRAME_BYTES).wrapping_add(address.0 % FRAME_BYTES)))
}
