//! The load list of parts: of the lists that put them in this order, each byte once, one with the fewest pieces, and of
//! those the shortest.

use super::commands::{self, MOST_PIECES};
use std::collections::VecDeque;

/// A list, and how many pieces it has.
#[derive(Clone, PartialEq, Eq, Debug)]
pub struct Packed {
    pub list: Vec<u8>,
    pub pieces: u64,
}

impl Packed {
    /// Whether it has no more pieces than a list may have.
    pub fn is_allowed(&self) -> bool {
        self.pieces <= MOST_PIECES
    }

    /// Puts a part's bytes.
    fn part(&mut self, mut bytes: &[u8]) {
        for piece in pieces(bytes) {
            let (taken, rest) = bytes.split_at(piece.length().min(bytes.len()));
            self.pieces += 1;
            match piece {
                Piece::One => self.list.push(commands::BYTE),
                Piece::Four => self.list.push(commands::FOUR),
                Piece::Copies(count) => {
                    self.list.push(commands::COPIES);
                    self.list.extend(count.to_be_bytes());
                }
            }
            self.list.extend(taken.get(..piece.stored()).unwrap_or(taken));
            bytes = rest;
        }
    }
}

/// The list that puts each part, bytes with their address, in this order.
pub fn packed<'a>(parts: impl Iterator<Item = (u32, &'a [u8])>) -> Packed {
    let mut packed = Packed { list: Vec::new(), pieces: 0 };
    let mut place = 0;
    for (address, bytes) in parts {
        if address != place {
            packed.list.push(commands::MOVE);
            packed.list.extend(address.to_be_bytes());
        }
        packed.part(bytes);
        place = address.wrapping_add(bytes.len() as u32);
    }
    packed.list.push(commands::END);
    packed
}

/// A command that puts.
#[derive(Clone, Copy, PartialEq, Eq, Debug)]
enum Piece {
    One,
    Four,
    Copies(u16),
}

impl Piece {
    /// The bytes that it puts.
    fn length(self) -> usize {
        match self {
            Piece::One => 1,
            Piece::Four => 4,
            Piece::Copies(count) => usize::from(count),
        }
    }

    /// Those of them that stand in the list.
    fn stored(self) -> usize {
        match self {
            Piece::One | Piece::Copies(_) => 1,
            Piece::Four => 4,
        }
    }

    /// The bytes of the command.
    fn cost(self) -> u32 {
        match self {
            Piece::One => 2,
            Piece::Four => 5,
            Piece::Copies(_) => 4,
        }
    }
}

/// The pieces for a row of bytes. They are chosen from its end on: what the bytes behind a piece cost is known then.
fn pieces(bytes: &[u8]) -> Vec<Piece> {
    let mut first = vec![Piece::One; bytes.len()];
    // Pieces and bytes of the list, for the bytes from each place behind the present one on, as far as a piece reaches.
    let mut behind = VecDeque::from([(0_u32, 0_u32)]);
    let mut run = 0;
    for (at, chosen) in first.iter_mut().enumerate().rev() {
        run = if bytes.get(at) == bytes.get(at + 1) { run + 1 } else { 1 };
        let cost = |piece: &Piece| {
            let (pieces, cost) = behind.get(piece.length() - 1)?;
            Some((pieces + 1, cost + piece.cost()))
        };
        let ways = candidates(run).filter_map(|piece| Some((cost(&piece)?, piece)));
        if let Some((least, piece)) = ways.min_by_key(|(cost, _)| *cost) {
            behind.push_front(least);
            behind.truncate(usize::from(u16::MAX));
            *chosen = piece;
        }
    }
    let mut at = 0;
    let chosen = std::iter::from_fn(|| {
        let piece = *first.get(at)?;
        at += piece.length();
        Some(piece)
    });
    chosen.collect()
}

/// What may be put first where so many equal bytes begin. Copies end with the run, or leave up to three of its bytes to a
/// piece of four that goes on behind it; to leave more is never better.
fn candidates(run: usize) -> impl Iterator<Item = Piece> {
    let most = u16::try_from(run).unwrap_or(u16::MAX);
    let copies = (most.saturating_sub(3).max(2)..=most).rev().map(Piece::Copies);
    copies.chain([Piece::Four, Piece::One])
}

#[cfg(test)]
mod tests {
    use super::*;

    fn list(bytes: &[u8]) -> Vec<u8> {
        packed([(0, bytes)].into_iter()).list
    }

    #[test]
    fn pieces_for_rows_of_bytes() {
        assert_eq!(list(&[]), [0]);
        assert_eq!(list(&[7]), [2, 7, 0]);
        assert_eq!(list(&[7, 7]), [4, 0, 2, 7, 0]);
        assert_eq!(list(&[1, 2, 3, 4, 5]), [3, 1, 2, 3, 4, 2, 5, 0]);
        assert_eq!(list(&[0, 0, 0, 0, 0, 1, 2, 3]), [4, 0, 4, 0, 3, 0, 1, 2, 3, 0]);
        assert_eq!(list(&[9; 65_536]), [4, 0xFF, 0xFF, 9, 2, 9, 0]);
    }

    #[test]
    fn parts_have_their_addresses() {
        let parts: [(u32, &[u8]); 3] = [(0x200, &[1]), (0x201, &[2]), (0x10, &[3])];
        let packed = packed(parts.into_iter());
        assert_eq!(packed.list, [1, 0, 0, 2, 0, 2, 1, 2, 2, 1, 0, 0, 0, 0x10, 2, 3, 0]);
        assert_eq!(packed.pieces, 3);
    }

    /// The fewest pieces, and of such lists the fewest bytes, where copies may end anywhere in a run.
    fn least(bytes: &[u8]) -> (u32, u32) {
        let mut best = vec![(0, 0); bytes.len() + 1];
        for at in (0..bytes.len()).rev() {
            let run = bytes[at..].iter().take_while(|byte| **byte == bytes[at]).count();
            let mut ways: Vec<Piece> = (1..=run as u16).map(Piece::Copies).collect();
            ways.extend([Piece::One, Piece::Four]);
            let costs = ways.into_iter().filter(|way| at + way.length() <= bytes.len()).map(|way| {
                let (pieces, cost) = best[at + way.length()];
                (pieces + 1, cost + way.cost())
            });
            best[at] = costs.min().expect("a way");
        }
        best[0]
    }

    #[test]
    fn no_list_has_fewer_pieces() {
        let mut seed = 7_u32;
        for _ in 0..2000 {
            let mut next = || {
                seed = seed.wrapping_mul(1_664_525).wrapping_add(1_013_904_223);
                seed >> 16
            };
            let length = next() % 40;
            let bytes: Vec<u8> = (0..length).map(|_| u8::from(next() % 4 == 0)).collect();
            let found = pieces(&bytes);
            assert_eq!(found.iter().map(|piece| piece.length()).sum::<usize>(), bytes.len());
            assert_eq!((found.len() as u32, found.iter().map(|piece| piece.cost()).sum()), least(&bytes), "{bytes:?}");
        }
    }
}
