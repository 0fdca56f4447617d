//! Which addresses a list puts bytes at.

use std::collections::BTreeMap;

/// Ranges that neither overlap nor touch: where each begins, and the address behind it.
#[derive(Clone, Default, Debug)]
pub struct Covered {
    ranges: BTreeMap<u64, u64>,
}

impl Covered {
    /// Adds a range that is not empty; answers whether some of it was there already.
    pub fn add(&mut self, from: u64, to: u64) -> bool {
        let (mut first, mut end, mut overlaps) = (from, to, false);
        while let Some((start, last)) = self.ranges.range(..=end).next_back().map(|(start, last)| (*start, *last)) {
            if last < first {
                break;
            }
            overlaps |= start < to && last > from;
            (first, end) = (first.min(start), end.max(last));
            self.ranges.remove(&start);
        }
        self.ranges.insert(first, end);
        overlaps
    }

    /// The ranges, lowest first.
    pub fn ranges(&self) -> impl Iterator<Item = (u64, u64)> + '_ {
        self.ranges.iter().map(|(from, to)| (*from, *to))
    }

    /// How many addresses they have.
    pub fn count(&self) -> u64 {
        self.ranges().map(|(from, to)| to - from).sum()
    }
}

#[cfg(test)]
mod tests {
    use super::*;

    #[test]
    fn ranges_are_joined() {
        let mut covered = Covered::default();
        assert!(!covered.add(10, 20) && !covered.add(30, 40) && !covered.add(20, 25));
        assert_eq!(covered.ranges().collect::<Vec<_>>(), [(10, 25), (30, 40)]);
        assert!(covered.add(24, 30));
        assert!(covered.add(5, 50) && !covered.add(0, 5));
        assert_eq!(covered.ranges().collect::<Vec<_>>(), [(0, 50)]);
        assert_eq!(covered.count(), 50);
    }
}
