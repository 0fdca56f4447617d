//! Load lists. The first pass judges the whole list, the second puts its bytes.

use super::entry::allowed;

const MOST_PIECES: usize = 4096;

/// Numbers of refusals.
pub const LENGTH: u32 = 1;
const MALFORMED: u32 = 17;
const PIECES: u32 = 18;
const OUTSIDE: u32 = 19;

pub enum Command {
    End,
    Move(usize),
    Byte(u8),
    Four([u8; 4]),
    Copies(usize, u8),
}

/// The first command of a list and what follows it; `None` where it is unknown or cut short.
#[inline]
pub fn next(list: &[u8]) -> Option<(Command, &[u8])> {
    Some(match list {
        [0x00, rest @ ..] => (Command::End, rest),
        [0x01, a, b, c, d, rest @ ..] => (Command::Move(u32::from_be_bytes([*a, *b, *c, *d]) as usize), rest),
        [0x02, byte, rest @ ..] => (Command::Byte(*byte), rest),
        [0x03, a, b, c, d, rest @ ..] => (Command::Four([*a, *b, *c, *d]), rest),
        [0x04, a, b, byte, rest @ ..] => (Command::Copies(u16::from_be_bytes([*a, *b]) as usize, *byte), rest),
        _ => return None,
    })
}

/// Loads a list; where it is refused, memory stays as it was.
#[inline(never)]
pub fn load(memory: &mut [u8], list: &[u8]) -> Result<(), u32> {
    if !allowed(memory.len() as u64) {
        return Err(LENGTH);
    }
    judge(memory.len(), list)?;
    put(memory, list);
    Ok(())
}

/// The refusals of a list for a memory of this length.
pub fn judge(length: usize, mut list: &[u8]) -> Result<(), u32> {
    let (mut place, mut pieces, mut inside) = (0, 0, true);
    loop {
        let (command, rest) = next(list).ok_or(MALFORMED)?;
        list = rest;
        let count = match command {
            Command::End => break,
            Command::Move(address) => {
                place = address;
                continue;
            }
            Command::Byte(_) => 1,
            Command::Four(_) => 4,
            Command::Copies(count, _) => count,
        };
        pieces += 1;
        place += count;
        inside &= count == 0 || place <= length;
    }
    if !list.is_empty() {
        return Err(MALFORMED);
    }
    if pieces > MOST_PIECES {
        return Err(PIECES);
    }
    if !inside {
        return Err(OUTSIDE);
    }
    Ok(())
}

/// Puts the bytes of a list that is not refused.
pub fn put(memory: &mut [u8], mut list: &[u8]) {
    let mut place = 0;
    while let Some((command, rest)) = next(list) {
        list = rest;
        match command {
            Command::End => break,
            Command::Move(address) => place = address,
            Command::Byte(byte) => {
                memory[place] = byte;
                place += 1;
            }
            Command::Four(bytes) => {
                memory[place..place + 4].copy_from_slice(&bytes);
                place += 4;
            }
            // The place may lie outside.
            Command::Copies(0, _) => {}
            Command::Copies(count, byte) => {
                memory[place..place + count].fill(byte);
                place += count;
            }
        }
    }
}
