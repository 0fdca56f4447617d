//! How offsets, addresses and lengths are written where a load list is spoken of.

use crate::notation::hexadecimal;
use crate::words;

/// A byte of the list: `byte 5`, `byte 12 (Ch)`. The first is byte 0.
pub fn offset(offset: usize) -> String {
    match offset {
        0..=9 => format!("byte {offset}"),
        _ => format!("byte {} ({offset:X}h)", words::count(offset as u64)),
    }
}

/// An address. The place does not wrap, so it may have more than eight digits.
pub fn address(place: u64) -> String {
    match u32::try_from(place) {
        Ok(address) => hexadecimal(address),
        Err(_) => format!("{place:X}h"),
    }
}

/// The addresses from a place up to the one before the end: `200h`, `200h to 203h`.
pub fn range(place: u64, end: u64) -> String {
    match end.saturating_sub(place) {
        0 | 1 => address(place),
        _ => format!("{} to {}", address(place), address(end - 1)),
    }
}

/// `1 byte`, `1,536 bytes`.
pub fn bytes(count: u64) -> String {
    words::counted(count, "byte", "bytes")
}

/// The length of a memory: `1,536 bytes (600h)`.
pub fn length(length: usize) -> String {
    format!("{} ({})", bytes(length as u64), address(length as u64))
}
