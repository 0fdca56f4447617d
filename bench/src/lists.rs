//! The load lists that are measured. All put below the shorter length of `LENGTHS`, so that they are the same in both
//! memories.

use crate::loops::LENGTHS;
use model::rng::Rng;

#[derive(Clone, Copy, PartialEq, Eq, Debug)]
pub enum Lists {
    /// Long copies that fill the shorter memory.
    Runs,
    /// Small pieces and moves: other lists in turn, so that a processor cannot learn them.
    Pieces,
    /// The first of those lists again and again.
    Again,
}

pub const ALL: [Lists; 3] = [Lists::Runs, Lists::Pieces, Lists::Again];

/// How many lists of small pieces are loaded in turn.
const IN_TURN: u64 = 32;

#[derive(Default)]
pub struct List {
    pub bytes: Vec<u8>,
    pieces: usize,
    /// Bytes that it puts.
    pub put: usize,
}

impl Lists {
    pub fn name(self) -> &'static str {
        match self {
            Lists::Runs => "runs",
            Lists::Pieces => "pieces",
            Lists::Again => "again",
        }
    }

    pub fn named(name: &str) -> Option<Lists> {
        ALL.into_iter().find(|lists| lists.name() == name)
    }

    /// The lists that are loaded in turn.
    pub fn lists(self) -> Vec<List> {
        match self {
            Lists::Runs => vec![runs()],
            Lists::Pieces => (1..=IN_TURN).map(pieces).collect(),
            Lists::Again => vec![pieces(1)],
        }
    }
}

impl List {
    pub fn to(&mut self, address: u32) {
        self.bytes.push(0x01);
        self.bytes.extend(address.to_be_bytes());
    }

    pub fn piece(&mut self, command: &[u8], put: usize) {
        self.bytes.extend(command);
        self.pieces += 1;
        self.put += put;
    }

    pub fn copies(&mut self, count: u16, byte: u8) {
        let [high, low] = count.to_be_bytes();
        self.piece(&[0x04, high, low, byte], usize::from(count));
    }

    pub fn end(mut self) -> List {
        self.bytes.push(0x00);
        self
    }
}

fn runs() -> List {
    let mut list = List::default();
    for byte in 1..=(LENGTHS[0] / usize::from(u16::MAX)) as u8 {
        list.copies(u16::MAX, byte);
    }
    list.end()
}

/// As many pieces as a list may have, a third each: a byte, four bytes, up to 15 copies. One in four begins at another
/// place.
fn pieces(seed: u64) -> List {
    let mut rng = Rng::new(seed);
    let mut list = List::default();
    while list.pieces < 4096 {
        if list.pieces == 0 || rng.below(4) == 0 {
            list.to(rng.below(LENGTHS[0] as u32 / 2));
        }
        let [a, b, c, d] = rng.word().to_be_bytes();
        match rng.below(3) {
            0 => list.piece(&[0x02, a], 1),
            1 => list.piece(&[0x03, a, b, c, d], 4),
            _ => list.copies(rng.below(16) as u16, a),
        }
    }
    list.end()
}
