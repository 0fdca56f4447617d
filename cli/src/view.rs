//! Memory as a program sees it: a virtual address through its map.

use crate::decode::Trouble;
pub use midesk::numbers::{
    MAP_FRAME as FRAME, MAP_NO_FETCH as NO_FETCH, MAP_PRESENT as PRESENT, MAP_WRITABLE as WRITABLE,
};

/// Map entry: bits that must be 0 where the page is there.
pub const FORBIDDEN: u32 = !(PRESENT | WRITABLE | NO_FETCH | FRAME);

/// What a program may do with a byte, besides reading it.
#[derive(Clone, Copy, PartialEq, Eq, Debug)]
pub struct Rights {
    pub write: bool,
    /// Whether it may be fetched, as a byte of a command.
    pub fetch: bool,
}

impl Rights {
    /// In words, as tables, listings and pictures have them.
    pub fn words(self) -> &'static str {
        match (self.write, self.fetch) {
            (true, true) => "read, write, run",
            (true, false) => "read, write",
            (false, true) => "read, run",
            (false, false) => "read",
        }
    }
}

/// Why a virtual address leads nowhere.
#[derive(Clone, Copy, PartialEq, Eq, Debug)]
pub enum Damage {
    /// The page is past the map (alarm 8).
    PastMap { page: u32 },
    /// The entry is absent (alarm 9).
    Absent { page: u32, entry: u32 },
    /// One of bits 28 to 24 is set (alarm 10).
    ForbiddenBits { page: u32, entry: u32 },
    /// The frame lies past the memory (alarm 10).
    PastMemory { page: u32, frame: u32 },
    /// The map itself is not in the memory (refusal 4).
    NoMap { page: u32 },
}

impl Damage {
    /// The alarm of a use; for a map that is not in the memory there is none.
    pub fn alarm(self) -> Option<u32> {
        match self {
            Damage::PastMap { .. } => Some(8),
            Damage::Absent { .. } => Some(9),
            Damage::ForbiddenBits { .. } | Damage::PastMemory { .. } => Some(10),
            Damage::NoMap { .. } => None,
        }
    }
}

/// The real address of a virtual one.
pub fn real(memory: &[u8], map_base: u32, map_length: u32, address: u32) -> Result<(u32, Rights), Damage> {
    let page = address / 512;
    if page >= map_length {
        return Err(Damage::PastMap { page });
    }
    let at = u64::from(map_base) + 4 * u64::from(page);
    let entry = u32::try_from(at).ok().and_then(|at| word(memory, at)).ok_or(Damage::NoMap { page })?;
    let (frame, rights) = entry_of(memory, page, entry)?;
    Ok((frame * 512 + address % 512, rights))
}

/// The real address of a virtual one, of a byte that is fetched for a command.
pub fn real_to_fetch(memory: &[u8], map_base: u32, map_length: u32, address: u32) -> Result<u32, Trouble> {
    match real(memory, map_base, map_length, address) {
        Ok((real, rights)) if rights.fetch => Ok(real),
        Ok(_) => Err(Trouble::NoFetch(address)),
        Err(_) => Err(Trouble::Unreadable(address)),
    }
}

/// The frame and the rights of a map entry.
pub fn entry_of(memory: &[u8], page: u32, entry: u32) -> Result<(u32, Rights), Damage> {
    if entry & PRESENT == 0 {
        return Err(Damage::Absent { page, entry });
    }
    if entry & FORBIDDEN != 0 {
        return Err(Damage::ForbiddenBits { page, entry });
    }
    let frame = entry & FRAME;
    if (u64::from(frame) + 1) * 512 > memory.len() as u64 {
        return Err(Damage::PastMemory { page, frame });
    }
    Ok((frame, Rights { write: entry & WRITABLE != 0, fetch: entry & NO_FETCH == 0 }))
}

/// The byte at a real address.
pub fn byte(memory: &[u8], address: u32) -> Option<u8> {
    memory.get(usize::try_from(address).ok()?).copied()
}

/// The word at a real address, highest byte first.
pub fn word(memory: &[u8], address: u32) -> Option<u32> {
    let at = usize::try_from(address).ok()?;
    let bytes = memory.get(at..at.checked_add(4)?)?;
    Some(bytes.iter().fold(0, |word, byte| word << 8 | u32::from(*byte)))
}
