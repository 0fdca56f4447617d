//! Which command of a list puts the last byte at an address.

use super::commands::{self, Action, Command, Put, MOST_PIECES};
use std::collections::BTreeMap;

/// A command that puts, with what it puts.
#[derive(Clone, Copy, PartialEq, Eq, Debug)]
pub struct Putting<'a> {
    pub command: Command<'a>,
    pub put: Put<'a>,
}

/// Ranges of addresses that do not overlap: where each begins, the address behind it, and the command whose bytes stay
/// there.
#[derive(Clone, Default, Debug)]
pub struct Last<'a> {
    ranges: BTreeMap<u64, (u64, Putting<'a>)>,
}

impl<'a> Last<'a> {
    /// Those of a list; of one with more pieces than a list may have, those of the first ones.
    pub fn of(list: &'a [u8]) -> Last<'a> {
        let mut last = Last::default();
        for command in commands::commands(list).map_while(Result::ok) {
            match command.action {
                Action::Put(put) if put.piece > MOST_PIECES => break,
                Action::Put(put) if put.count() > 0 => last.add(Putting { command, put }),
                _ => {}
            }
        }
        last
    }

    /// Adds a later put: what it covers of earlier ones goes, what lies before and behind it stays.
    fn add(&mut self, putting: Putting<'a>) {
        let (from, end) = (putting.put.place, putting.put.end());
        let met = self.ranges.range(..end).rev().take_while(|(_, (last, _))| *last > from);
        let met: Vec<(u64, (u64, Putting))> = met.map(|(start, range)| (*start, *range)).collect();
        for (start, (last, earlier)) in met {
            self.ranges.remove(&start);
            if start < from {
                self.ranges.insert(start, (from, earlier));
            }
            if last > end {
                self.ranges.insert(end, (last, earlier));
            }
        }
        self.ranges.insert(from, (end, putting));
    }

    /// The ranges, lowest first.
    pub fn ranges(&self) -> impl Iterator<Item = (u64, u64, Putting<'a>)> + '_ {
        self.ranges.iter().map(|(from, (to, putting))| (*from, *to, *putting))
    }
}

#[cfg(test)]
mod tests {
    use super::*;

    /// The ranges of a list with the piece whose bytes stay in each.
    fn pieces(list: &[u8]) -> Vec<(u64, u64, u64)> {
        Last::of(list).ranges().map(|(from, to, putting)| (from, to, putting.put.piece)).collect()
    }

    #[test]
    fn the_later_put_stays() {
        assert_eq!(pieces(&[0]), []);
        assert_eq!(pieces(&[4, 0, 0, 7, 0]), []);
        assert_eq!(pieces(&[4, 0, 9, 7, 1, 0, 0, 0, 3, 3, 1, 2, 3, 4, 0]), [(0, 3, 1), (3, 7, 2), (7, 9, 1)]);
        assert_eq!(pieces(&[2, 7, 2, 8, 2, 9, 1, 0, 0, 0, 0, 4, 0, 2, 1, 0]), [(0, 2, 4), (2, 3, 3)]);
        assert_eq!(pieces(&[1, 0, 0, 0, 2, 2, 9, 1, 0, 0, 0, 0, 4, 0, 8, 1, 0]), [(0, 8, 2)]);
        assert_eq!(pieces(&[4, 0, 4, 1, 1, 0, 0, 0, 2, 4, 0, 4, 2, 0]), [(0, 2, 1), (2, 6, 2)]);
    }
}
