//! The pairs of load lists that are measured, in a memory of 16 MiB, each list of as many pieces as it may have. What
//! both put last at an address is equal, since it is a byte of one image.

use crate::lists::List;
use model::rng::Rng;

#[derive(Clone, Copy, PartialEq, Eq, Debug)]
pub enum Pairs {
    /// Copies of about 4 KiB, by which each list covers the memory.
    Runs,
    /// Pieces of 1 to 4 bytes, far from each other: other pairs in turn.
    Pieces,
}

pub const ALL: [Pairs; 2] = [Pairs::Runs, Pairs::Pieces];

/// Bytes of the memory.
pub const LENGTH: usize = 16 << 20;

/// Pieces of a list.
const PIECES: u32 = 4096;

/// How many pairs of small pieces are loaded in turn.
const IN_TURN: u64 = 8;

pub type Pair = [List; 2];

impl Pairs {
    pub fn name(self) -> &'static str {
        match self {
            Pairs::Runs => "runs",
            Pairs::Pieces => "pieces",
        }
    }

    pub fn named(name: &str) -> Option<Pairs> {
        ALL.into_iter().find(|pairs| pairs.name() == name)
    }

    /// The pairs that are loaded in turn.
    pub fn pairs(self) -> Vec<Pair> {
        match self {
            Pairs::Runs => vec![runs()],
            Pairs::Pieces => (1..=IN_TURN).map(pieces).collect(),
        }
    }
}

/// The byte that the image has throughout this unit.
fn image(unit: u32) -> u8 {
    (unit * 37 + (unit >> 8)) as u8
}

/// The first list goes from one end of memory to the other. So does the second, but each of its copies also covers the
/// beginning of the next one's place, which replaces it.
fn runs() -> Pair {
    const SIZE: u32 = LENGTH as u32 / PIECES;
    const OVER: u32 = 512;
    let (mut first, mut second) = (List::default(), List::default());
    for unit in 0..PIECES {
        first.copies(SIZE as u16, image(unit));
        second.to(SIZE * unit);
        second.copies((SIZE + if unit + 1 < PIECES { OVER } else { 0 }) as u16, image(unit));
    }
    [first.end(), second.end()]
}

/// Units of 16 bytes anywhere, in each of which up to 4 bytes are put; a quarter of the second list's are the first's.
fn pieces(seed: u64) -> Pair {
    const SIZE: u32 = 16;
    let mut rng = Rng::new(seed);
    let (mut first, mut second) = (List::default(), List::default());
    for i in 0..PIECES {
        let one = rng.below(LENGTH as u32 / SIZE);
        let other = if i % 4 == 0 { one } else { rng.below(LENGTH as u32 / SIZE) };
        for (list, unit) in [(&mut first, one), (&mut second, other)] {
            let byte = image(unit);
            list.to(SIZE * unit + rng.below(4));
            match rng.below(3) {
                0 => list.piece(&[0x02, byte], 1),
                1 => list.piece(&[0x03, byte, byte, byte, byte], 4),
                _ => list.copies(1 + rng.below(4) as u16, byte),
            }
        }
    }
    [first.end(), second.end()]
}
