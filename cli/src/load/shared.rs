//! What two lists put at the same addresses, and where their last bytes there differ.

use super::commands::Content;
use super::covered::Covered;
use super::last::{Last, Putting};
use super::written;
use super::wrong;
use crate::words;

/// The addresses that two lists put.
#[derive(Clone, Default, Debug)]
pub struct Shared<'a> {
    /// Those that both put.
    pub both: Covered,
    /// Those of them at which their last bytes differ.
    pub clashing: Covered,
    clash: Option<Clash<'a>>,
}

/// The first address at which two lists clash: refusal 23.
#[derive(Clone, Copy, PartialEq, Eq, Debug)]
pub struct Clash<'a> {
    pub address: u64,
    /// The last byte that each puts there, and the command that puts it.
    pub first: (u8, Putting<'a>),
    pub second: (u8, Putting<'a>),
    /// At how many addresses they clash.
    pub count: u64,
}

/// What two lists have in common.
pub fn shared<'a>(first: &'a [u8], second: &'a [u8]) -> Shared<'a> {
    let (first, second) = (Last::of(first), Last::of(second));
    let mut shared = Shared::default();
    let (mut one, mut other) = (first.ranges().peekable(), second.ranges().peekable());
    while let (Some(&(start, end, a)), Some(&(from, to, b))) = (one.peek(), other.peek()) {
        if start.max(from) < end.min(to) {
            shared.add(start.max(from), end.min(to), a, b);
        }
        match end <= to {
            true => one.next(),
            false => other.next(),
        };
    }
    shared
}

impl<'a> Shared<'a> {
    /// Adds a range in which the bytes of one command of each list stay.
    fn add(&mut self, from: u64, to: u64, a: Putting<'a>, b: Putting<'a>) {
        self.both.add(from, to);
        match (a.put.content, b.put.content) {
            (Content::Copies { .. }, Content::Copies { .. }) => self.compare(from, to, a, b),
            _ => (from..to).for_each(|at| self.compare(at, at + 1, a, b)),
        }
    }

    /// Compares their bytes in a range in which each puts copies of one.
    fn compare(&mut self, from: u64, to: u64, a: Putting<'a>, b: Putting<'a>) {
        let (Some(first), Some(second)) = (a.put.byte_at(from), b.put.byte_at(from)) else { return };
        if first != second {
            self.clashing.add(from, to);
            self.clash.get_or_insert(Clash { address: from, first: (first, a), second: (second, b), count: 0 });
        }
    }

    /// Where they clash first, if they do.
    pub fn clash(&self) -> Option<Clash<'a>> {
        self.clash.map(|clash| Clash { count: self.clashing.count(), ..clash })
    }
}

impl Clash<'_> {
    /// What it is and where: `two unequal last bytes at one address: the first list puts 06h at 403h, ..`.
    pub fn words(&self) -> String {
        let by = |putting: &Putting| {
            format!("{} at {} of it", wrong::command(&putting.command), written::offset(putting.command.offset))
        };
        let (Clash { first: (one, a), second: (other, b), .. }, byte) = (self, |byte: u8| words::byte(u32::from(byte)));
        format!(
            "{}: the first list puts {} at {}, by {}, and the second puts {} there, by {}; {}",
            words::list_refusal(23),
            byte(*one),
            written::address(self.address),
            by(a),
            byte(*other),
            by(b),
            match self.count {
                1 => "1 address clashes".to_string(),
                count => format!("{} addresses clash", words::count(count)),
            }
        )
    }
}

#[cfg(test)]
mod tests {
    use super::*;

    fn ranges(covered: &Covered) -> Vec<(u64, u64)> {
        covered.ranges().collect()
    }

    #[test]
    fn equal_last_bytes_are_no_clash() {
        let (first, second) = ([2, 1, 2, 2, 2, 3, 1, 0, 0, 0, 1, 2, 9, 0], [1, 0, 0, 0, 1, 2, 9, 2, 3, 2, 4, 0]);
        let shared = shared(&first, &second);
        assert_eq!((ranges(&shared.both), shared.clash()), (vec![(1, 3)], None));
    }

    #[test]
    fn the_first_clash_is_told() {
        let (first, second) = ([4, 0, 8, 7, 0], [1, 0, 0, 0, 1, 3, 7, 8, 7, 9, 4, 0, 9, 6, 0]);
        let shared = shared(&first, &second);
        assert_eq!(ranges(&shared.both), [(1, 8)]);
        assert_eq!(ranges(&shared.clashing), [(2, 3), (4, 8)]);
        let clash = shared.clash().expect("a clash");
        assert_eq!((clash.address, clash.first.0, clash.second.0, clash.count), (2, 7, 8, 5));
        assert_eq!((clash.first.1.command.offset, clash.second.1.command.offset), (0, 5));
        assert_eq!(
            clash.words(),
            "two unequal last bytes at one address: the first list puts 07h at 2, by 04h (put copies) at byte 0 of it, \
             and the second puts 08h there, by 03h (put four bytes) at byte 5 of it; 5 addresses clash"
        );
    }
}
