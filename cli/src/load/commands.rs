//! The commands of a load list, and the one walk over its bytes: words, refusals, totals and lengths all go by it.

/// A kind of command. Its byte is its place in `KINDS`.
#[derive(Debug)]
pub struct Kind {
    pub name: &'static str,
    /// The bytes behind the command byte.
    pub operands: usize,
    /// As the help writes it, and what it does.
    pub written: &'static str,
    pub does: &'static str,
}

pub const END: u8 = 0;
pub const MOVE: u8 = 1;
pub const BYTE: u8 = 2;
pub const FOUR: u8 = 3;
pub const COPIES: u8 = 4;

const fn kind(name: &'static str, operands: usize, written: &'static str, does: &'static str) -> Kind {
    Kind { name, operands, written, does }
}

pub const KINDS: [Kind; 5] = [
    kind("end", 0, "00", "ends the list; nothing follows it"),
    kind("move", 4, "01 AAAAAAAA", "moves the place to an address"),
    kind("put a byte", 1, "02 BB", "puts a byte"),
    kind("put four bytes", 4, "03 BBBBBBBB", "puts four bytes"),
    kind("put copies", 3, "04 CCCC BB", "puts as many copies of a byte as the count says; 0 puts none"),
];

/// The commands as `desk help load` shows them.
pub const SUMMARY: [(&str, &str); KINDS.len()] = {
    let mut summary = [("", ""); KINDS.len()];
    let mut i = 0;
    while i < KINDS.len() {
        summary[i] = (KINDS[i].written, KINDS[i].does);
        i += 1;
    }
    summary
};

/// The pieces that a list may have: its commands that put.
pub const MOST_PIECES: u64 = 4096;

/// A command, with its bytes and where in the list they begin.
#[derive(Clone, Copy, PartialEq, Eq, Debug)]
pub struct Command<'a> {
    pub offset: usize,
    pub bytes: &'a [u8],
    pub action: Action<'a>,
}

#[derive(Clone, Copy, PartialEq, Eq, Debug)]
pub enum Action<'a> {
    End,
    Move(u32),
    Put(Put<'a>),
}

#[derive(Clone, Copy, PartialEq, Eq, Debug)]
pub struct Put<'a> {
    /// Its number among the pieces, from 1.
    pub piece: u64,
    /// It does not wrap, and so may be past the last address.
    pub place: u64,
    pub content: Content<'a>,
}

#[derive(Clone, Copy, PartialEq, Eq, Debug)]
pub enum Content<'a> {
    Bytes(&'a [u8]),
    Copies { count: u16, byte: u8 },
}

impl Put<'_> {
    /// The bytes that it puts.
    pub fn count(&self) -> u64 {
        match self.content {
            Content::Bytes(bytes) => bytes.len() as u64,
            Content::Copies { count, .. } => u64::from(count),
        }
    }

    /// The place behind them.
    pub fn end(&self) -> u64 {
        self.place + self.count()
    }

    /// The byte that it puts at an address, if it puts one there.
    pub fn byte_at(&self, address: u64) -> Option<u8> {
        let at = address.checked_sub(self.place).filter(|at| *at < self.count())?;
        match self.content {
            Content::Bytes(bytes) => bytes.get(at as usize).copied(),
            Content::Copies { byte, .. } => Some(byte),
        }
    }

    /// Whether it puts a byte past a memory of this length.
    pub fn is_outside(&self, length: usize) -> bool {
        self.count() > 0 && self.end() > length as u64
    }
}

/// Why a list is none, and where: refusal 17.
#[derive(Clone, Copy, PartialEq, Eq, Debug)]
pub enum Malformed {
    Unknown {
        offset: usize,
        byte: u8,
    },
    /// The list ends inside a command, `found` bytes behind its first.
    CutShort {
        offset: usize,
        byte: u8,
        found: usize,
    },
    /// The list ends where a command should begin.
    NoEnd {
        offset: usize,
    },
    /// So many bytes stand behind the end, which is at `end`.
    After {
        end: usize,
        count: usize,
    },
}

/// The commands of a list in their order. What makes the list none comes last.
pub fn commands(list: &[u8]) -> Commands<'_> {
    Commands { list, offset: 0, place: 0, pieces: 0, state: State::Open }
}

pub struct Commands<'a> {
    list: &'a [u8],
    offset: usize,
    place: u64,
    pieces: u64,
    state: State,
}

enum State {
    Open,
    /// The end was met, and bytes may stand behind it.
    Ended,
    Over,
}

impl<'a> Iterator for Commands<'a> {
    type Item = Result<Command<'a>, Malformed>;

    fn next(&mut self) -> Option<Self::Item> {
        match self.state {
            State::Over => None,
            State::Ended => {
                self.state = State::Over;
                let count = self.list.len().saturating_sub(self.offset);
                (count > 0).then(|| Err(Malformed::After { end: self.offset - 1, count }))
            }
            State::Open => {
                let command = self.command();
                self.state = match &command {
                    Ok(Command { action: Action::End, .. }) => State::Ended,
                    Ok(_) => State::Open,
                    Err(_) => State::Over,
                };
                Some(command)
            }
        }
    }
}

impl<'a> Commands<'a> {
    fn command(&mut self) -> Result<Command<'a>, Malformed> {
        let offset = self.offset;
        let rest = self.list.get(offset..).unwrap_or(&[]);
        let Some((byte, behind)) = rest.split_first() else { return Err(Malformed::NoEnd { offset }) };
        let (byte, found) = (*byte, behind.len());
        let Some(kind) = KINDS.get(usize::from(byte)) else { return Err(Malformed::Unknown { offset, byte }) };
        let (Some(bytes), Some(operands)) = (rest.get(..1 + kind.operands), behind.get(..kind.operands)) else {
            return Err(Malformed::CutShort { offset, byte, found });
        };
        self.offset += bytes.len();
        let action = match (byte, operands) {
            (MOVE, [a, b, c, d]) => self.moved(u32::from_be_bytes([*a, *b, *c, *d])),
            (BYTE | FOUR, bytes) => self.put(Content::Bytes(bytes)),
            (COPIES, [high, low, byte]) => {
                self.put(Content::Copies { count: u16::from_be_bytes([*high, *low]), byte: *byte })
            }
            _ => Action::End,
        };
        Ok(Command { offset, bytes, action })
    }

    fn moved(&mut self, to: u32) -> Action<'a> {
        self.place = u64::from(to);
        Action::Move(to)
    }

    fn put(&mut self, content: Content<'a>) -> Action<'a> {
        self.pieces += 1;
        let put = Put { piece: self.pieces, place: self.place, content };
        self.place = put.end();
        Action::Put(put)
    }
}

/// The pieces of a list, up to what makes it none.
pub fn puts(list: &[u8]) -> impl Iterator<Item = Put<'_>> {
    commands(list).filter_map(|command| match command {
        Ok(Command { action: Action::Put(put), .. }) => Some(put),
        _ => None,
    })
}

#[cfg(test)]
mod tests {
    use super::*;

    fn walked(list: &[u8]) -> Vec<Result<Command<'_>, Malformed>> {
        commands(list).collect()
    }

    #[test]
    fn all_five_commands() {
        let list = [1, 0, 0, 2, 0, 2, 0xAA, 3, 1, 2, 3, 4, 4, 1, 0, 0xBB, 0];
        let places: Vec<(u64, u64, u64)> = puts(&list).map(|put| (put.piece, put.place, put.end())).collect();
        assert_eq!(places, [(1, 0x200, 0x201), (2, 0x201, 0x205), (3, 0x205, 0x305)]);
        let all = walked(&list);
        assert_eq!(all.first(), Some(&Ok(Command { offset: 0, bytes: &list[..5], action: Action::Move(0x200) })));
        assert_eq!(all.last(), Some(&Ok(Command { offset: 16, bytes: &[0], action: Action::End })));
    }

    #[test]
    fn every_way_to_be_none() {
        let cases: [(&[u8], Malformed); 5] = [
            (&[], Malformed::NoEnd { offset: 0 }),
            (&[2, 1], Malformed::NoEnd { offset: 2 }),
            (&[2, 1, 5, 0], Malformed::Unknown { offset: 2, byte: 5 }),
            (&[4, 0, 0], Malformed::CutShort { offset: 0, byte: 4, found: 2 }),
            (&[2, 1, 0, 7, 7], Malformed::After { end: 2, count: 2 }),
        ];
        for (list, malformed) in cases {
            assert_eq!(walked(list).pop(), Some(Err(malformed)), "{list:?}");
        }
    }

    /// A place past the last address stays past it, and no copies are nowhere outside.
    #[test]
    fn the_place_does_not_wrap() {
        let list = [1, 0xFF, 0xFF, 0xFF, 0xFF, 4, 0, 0, 9, 2, 9, 2, 9, 0];
        let puts: Vec<Put> = puts(&list).collect();
        assert_eq!(puts.iter().map(|put| put.place).collect::<Vec<_>>(), [0xFFFF_FFFF, 0xFFFF_FFFF, 0x1_0000_0000]);
        assert_eq!(puts.iter().map(|put| put.is_outside(512)).collect::<Vec<_>>(), [false, true, true]);
    }
}
