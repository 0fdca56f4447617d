//! Joint loading (request F-5): the call `load_both`, which needs no desk.
//!
//! Each list is judged as `load` judges it. Then it gets a table: at each address the last byte
//! that it puts there, if any. The tables are compared where both have a byte, and then written.
//! None of this needs the scratch; it is measured and cleared as the request says.

use crate::checks::{must, Broken};
use crate::load::{self, Command};

/// At each address of the memory the last byte that a list puts there, or none.
pub type Table = Vec<Option<u8>>;

/// A list's pieces with their places, as `load::place` gives them.
pub type Placed = Vec<(u64, Command)>;

/// The table of a list whose puts all lie in memory.
pub fn table(length: usize, placed: &[(u64, Command)]) -> Table {
    let mut table = vec![None; length];
    // In the list's order: a later put wins.
    for (place, piece) in placed {
        for (i, byte) in piece.bytes().iter().enumerate() {
            table[*place as usize + i] = Some(*byte);
        }
    }
    table
}

/// Number 22: the scratch is at least as long as the memory.
pub fn room(length: usize, scratch: usize) -> Result<(), Broken> {
    must(scratch >= length, 22, "scratch too short")
}

/// Number 23: where both put a byte, their last bytes are equal. Earlier ones don't matter.
pub fn agree(one: &Table, other: &Table) -> Result<(), Broken> {
    for puts in one.iter().zip(other) {
        if let (Some(byte), Some(against)) = puts {
            must(byte == against, 23, "two unequal last bytes")?;
        }
    }
    Ok(())
}

/// All that is tried before 23: "after 1 come the first list's 17 to 19, then the second's, then
/// 22". Gives the pieces of both.
pub fn judge(length: usize, first: &[u8], second: &[u8], scratch: usize) -> Result<(Placed, Placed), Broken> {
    let first = load::judge(length as u64, first)?;
    let second = load::judge(length as u64, second)?;
    room(length, scratch)?;
    Ok((first, second))
}

/// Loads two lists together. The answer is 0, or the number of the refusal.
pub fn load_both(memory: &mut [u8], first: &[u8], second: &[u8], scratch: &mut [u8]) -> u32 {
    let length = memory.len();
    let (first, second) = match judge(length, first, second, scratch.len()) {
        Ok(placed) => placed,
        Err(broken) => return broken.number,
    };
    let (one, other) = (table(length, &first), table(length, &second));
    // All of it, past the memory's length too, whether they load or clash.
    scratch.fill(0);
    if let Err(broken) = agree(&one, &other) {
        return broken.number;
    }
    for (at, puts) in one.iter().zip(&other).enumerate() {
        if let Some(byte) = puts.0.or(*puts.1) {
            memory[at] = byte;
        }
    }
    0
}
