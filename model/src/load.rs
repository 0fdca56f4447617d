//! Load lists (request F-1): the call `load`, which needs no desk.
//!
//! A list is read whole, then its pieces are counted, then they are placed; only then is anything
//! put. So each of 17, 18 and 19 is judged over the whole list before the next one, and a refused
//! list changes nothing.

use crate::checks::{self, must, Broken};

/// How many pieces a list may have.
pub const MOST_PIECES: usize = 4096;

/// A command of a list; 00h, the end, isn't kept.
#[derive(Clone, Copy, PartialEq, Eq, Debug)]
pub enum Command {
    /// 01h and a four-byte address moves the place.
    Move(u32),
    /// 02h and a byte puts it.
    Byte(u8),
    /// 03h and four bytes puts them.
    Four([u8; 4]),
    /// 04h with a two-byte count and a byte puts that many copies (0 puts none).
    Copies(u16, u8),
}

impl Command {
    /// "02h, 03h and 04h count as pieces", also a 04h that puts none.
    pub fn is_piece(&self) -> bool {
        match *self {
            Command::Move(_) => false,
            Command::Byte(_) => true,
            Command::Four(_) => true,
            Command::Copies(_, _) => true,
        }
    }

    /// What it puts, from the place upward.
    pub fn bytes(&self) -> Vec<u8> {
        match *self {
            Command::Move(_) => Vec::new(),
            Command::Byte(byte) => vec![byte],
            Command::Four(bytes) => bytes.to_vec(),
            Command::Copies(count, byte) => vec![byte; usize::from(count)],
        }
    }
}

/// Reads a list from its first byte on.
struct Reader<'a> {
    list: &'a [u8],
    at: usize,
}

impl Reader<'_> {
    /// The next byte; `missing` says what is cut short where there is none.
    fn byte(&mut self, missing: &'static str) -> Result<u8, Broken> {
        must(self.at < self.list.len(), 17, missing)?;
        self.at += 1;
        Ok(self.list[self.at - 1])
    }

    fn two(&mut self, missing: &'static str) -> Result<[u8; 2], Broken> {
        Ok([self.byte(missing)?, self.byte(missing)?])
    }

    fn four(&mut self, missing: &'static str) -> Result<[u8; 4], Broken> {
        Ok([self.byte(missing)?, self.byte(missing)?, self.byte(missing)?, self.byte(missing)?])
    }
}

/// Number 17: every command is known and whole, and the list ends with 00h and there alone.
/// Keeps the commands, as far as they can be read.
pub fn read(list: &[u8], commands: &mut Vec<Command>) -> Result<(), Broken> {
    must(!list.is_empty(), 17, "empty list")?;
    let mut reader = Reader { list, at: 0 };
    loop {
        let command = match reader.byte("no end")? {
            0x00 => break,
            0x01 => Command::Move(u32::from_be_bytes(reader.four("01h cut short")?)),
            0x02 => Command::Byte(reader.byte("02h cut short")?),
            0x03 => Command::Four(reader.four("03h cut short")?),
            0x04 => {
                let count = u16::from_be_bytes(reader.two("04h cut short in its count")?);
                Command::Copies(count, reader.byte("04h cut short before its byte")?)
            }
            _ => return must(false, 17, "unknown command"),
        };
        commands.push(command);
    }
    must(reader.at == list.len(), 17, "bytes after the end")
}

/// Number 18.
pub fn count(commands: &[Command]) -> Result<(), Broken> {
    let pieces = commands.iter().filter(|command| command.is_piece()).count();
    must(pieces <= MOST_PIECES, 18, "more than 4,096 pieces")
}

/// Each piece with the place of its first byte. "Puts advance the place, which starts at 0". It is
/// a whole number and never wraps.
pub fn place(commands: &[Command]) -> Vec<(u64, Command)> {
    let mut place = 0;
    let mut placed = Vec::new();
    for command in commands {
        if let Command::Move(address) = command {
            place = u64::from(*address);
        }
        if command.is_piece() {
            placed.push((place, *command));
        }
        place += command.bytes().len() as u64;
    }
    placed
}

/// Number 19: every byte that is put lies in memory. A place outside where nothing is put is allowed.
pub fn inside(length: u64, placed: &[(u64, Command)]) -> Result<(), Broken> {
    for (place, piece) in placed {
        for i in 0..piece.bytes().len() as u64 {
            must(place + i < length, 19, outside(piece, i == 0))?;
        }
    }
    Ok(())
}

/// For the coverage table: which put, and whether all of it lies outside.
fn outside(piece: &Command, whole: bool) -> &'static str {
    match (piece, whole) {
        (Command::Four(_), true) => "03h outside memory",
        (Command::Four(_), false) => "03h across the memory's end",
        (Command::Copies(_, _), true) => "04h outside memory",
        (Command::Copies(_, _), false) => "04h across the memory's end",
        _ => "02h outside memory",
    }
}

/// "Tried in that order after 1". Gives the pieces with their places.
pub fn judge(length: u64, list: &[u8]) -> Result<Vec<(u64, Command)>, Broken> {
    let mut commands = Vec::new();
    checks::length(length)?;
    read(list, &mut commands)?;
    count(&commands)?;
    let placed = place(&commands);
    inside(length, &placed)?;
    Ok(placed)
}

/// Loads a list into a memory. The answer is 0, or the number of the refusal.
pub fn load(memory: &mut [u8], list: &[u8]) -> u32 {
    let placed = match judge(memory.len() as u64, list) {
        Ok(placed) => placed,
        Err(broken) => return broken.number,
    };
    // In the list's order: "a later put wins".
    for (place, piece) in placed {
        for (i, byte) in piece.bytes().iter().enumerate() {
            memory[place as usize + i] = *byte;
        }
    }
    0
}
