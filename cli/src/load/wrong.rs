//! What is wrong with a load list, and where: the words of refusals 17 to 19. The number itself is the library's.

use super::commands::{self, Action, Command, Malformed, Put, KINDS, MOST_PIECES};
use super::written;
use crate::words;

/// What is wrong.
#[derive(Clone, Copy, PartialEq, Eq, Debug)]
pub enum Wrong<'a> {
    Malformed(Malformed),
    /// More pieces than a list may have; `first` is the first too many.
    Pieces {
        pieces: u64,
        first: Command<'a>,
    },
    /// The first put that is not in a memory of this length.
    Outside {
        command: Command<'a>,
        put: Put<'a>,
        length: usize,
    },
}

/// What a memory of this length refuses a list for, in the order of the numbers; each is judged over the whole list.
pub fn find(list: &[u8], length: usize) -> Option<Wrong<'_>> {
    let (mut pieces, mut too_many, mut outside) = (0, None, None);
    for command in commands::commands(list) {
        let command = match command {
            Ok(command) => command,
            Err(malformed) => return Some(Wrong::Malformed(malformed)),
        };
        let Action::Put(put) = command.action else { continue };
        pieces = put.piece;
        if put.piece == MOST_PIECES + 1 {
            too_many = Some(command);
        }
        if outside.is_none() && put.is_outside(length) {
            outside = Some(Wrong::Outside { command, put, length });
        }
    }
    too_many.map(|first| Wrong::Pieces { pieces, first }).or(outside)
}

impl Wrong<'_> {
    /// The number of the refusal.
    pub fn number(&self) -> u32 {
        match self {
            Wrong::Malformed(_) => 17,
            Wrong::Pieces { .. } => 18,
            Wrong::Outside { .. } => 19,
        }
    }

    /// What it is and where: `an unknown command: byte 12 (Ch) is 07h; ..`.
    pub fn words(&self) -> String {
        let meaning = words::list_refusal(self.number());
        match self {
            Wrong::Malformed(malformed) => malformed_words(malformed),
            Wrong::Pieces { pieces, first } => format!(
                "{meaning}: the list has {}, and the first too many is at {}, {}",
                words::count(*pieces),
                written::offset(first.offset),
                command(first)
            ),
            Wrong::Outside { command: at, put, length } => format!(
                "{meaning}: piece {} of the list, at {}, {}, puts {} at {}, and the memory has {}",
                words::count(put.piece),
                written::offset(at.offset),
                command(at),
                written::bytes(put.count()),
                written::range(put.place, put.end()),
                written::length(*length)
            ),
        }
    }
}

fn malformed_words(malformed: &Malformed) -> String {
    match *malformed {
        Malformed::Unknown { offset, byte } => format!(
            "an unknown command: {} of the list is {}, and the commands are 00h to 04h",
            written::offset(offset),
            words::byte(u32::from(byte))
        ),
        Malformed::CutShort { offset, byte, found } => format!(
            "a list cut short inside a command: {}, at {} of the list, needs {} behind it, and the list has {found} more",
            named(byte),
            written::offset(offset),
            written::bytes(operands(byte))
        ),
        Malformed::NoEnd { offset: 0 } => {
            "a list cut short: it is empty, and has not even its end, the command 00h".to_string()
        }
        Malformed::NoEnd { offset } => format!(
            "a list cut short: it stops at {}, and its end, the command 00h, is missing there",
            written::offset(offset)
        ),
        Malformed::After { end, count } => format!(
            "bytes after the end: the list ends at {} by the command 00h, and {} after it, from {} on",
            written::offset(end),
            stand(count),
            written::offset(end + 1)
        ),
    }
}

fn stand(count: usize) -> String {
    match count {
        1 => "1 byte stands".to_string(),
        _ => format!("{} stand", written::bytes(count as u64)),
    }
}

fn operands(byte: u8) -> u64 {
    KINDS.get(usize::from(byte)).map_or(0, |kind| kind.operands as u64)
}

/// A command by its byte and name: `03h (put four bytes)`.
fn named(byte: u8) -> String {
    let name = KINDS.get(usize::from(byte)).map_or("unknown", |kind| kind.name);
    format!("{} ({name})", words::byte(u32::from(byte)))
}

pub fn command(command: &Command) -> String {
    named(command.bytes.first().copied().unwrap_or(0))
}
