//! Random load lists, some of them damaged: the archive and plain Rust must answer alike and leave the same memory.

use crate::check::check_lists;
use crate::lists;
use crate::loader::Loader;
use model::rng::Rng;

/// An address in memory, near its end, or anywhere.
fn address(rng: &mut Rng, length: u32) -> u32 {
    match rng.below(40) {
        0 => rng.word(),
        1 => u32::MAX - rng.below(8),
        2..=4 => (length + 4).saturating_sub(rng.below(12)),
        _ => rng.below(length.saturating_sub(64).max(1)),
    }
}

/// A list for a memory of this length. Most put inside it.
pub fn list(rng: &mut Rng, length: u32) -> Vec<u8> {
    let pieces = if rng.chance(15) { 4090 + rng.below(14) } else { rng.below(12) };
    let mut list = vec![];
    for _ in 0..pieces {
        // Of many pieces nearly all begin at a place of their own, so that they stay in memory.
        if rng.chance(if pieces < 12 { 40 } else { 90 }) {
            let to = if pieces < 12 || rng.below(4000) == 0 { address(rng, length) } else { rng.below(64) };
            list.push(0x01);
            list.extend(to.to_be_bytes());
        }
        let [a, b, c, d] = rng.word().to_be_bytes();
        match rng.below(3) {
            0 => list.extend([0x02, a]),
            1 => list.extend([0x03, a, b, c, d]),
            _ if rng.chance(2) => list.extend([0x04, a % 4, b, c]),
            _ => list.extend([0x04, 0, a % 8, b]),
        }
    }
    list.push(0x00);
    if rng.chance(15) {
        damage(rng, &mut list);
    }
    list
}

/// Another byte somewhere, a cut, or more bytes at the end.
pub fn damage(rng: &mut Rng, list: &mut Vec<u8>) {
    let at = rng.below(list.len() as u32) as usize;
    match rng.below(3) {
        0 => list[at] = rng.below(8) as u8,
        1 => list.truncate(at),
        _ => list.push(rng.below(6) as u8),
    }
}

#[test]
fn random_lists() {
    let mut rng = Rng::new(3);
    let mut numbers = [0u64; 20];
    for case in 0..8000 {
        let length = if rng.chance(5) { rng.below(2000) } else { 512 * (1 + rng.below(4)) };
        let list = list(&mut rng, length);
        let memory: Vec<u8> = (0..length).map(|at| at as u8).collect();
        let (mut ours, mut theirs) = (memory.clone(), memory.clone());
        let answer = Loader::Proved.load(&mut ours, &list);
        assert_eq!(Loader::Plain.load(&mut theirs, &list), answer, "case {case}, memory {length}: {list:02X?}");
        assert!(ours == theirs, "case {case}, memory {length}, {answer:?}: {list:02X?}");
        assert!(answer.is_ok() || ours == memory, "case {case}: a refused list has changed memory");
        numbers[answer.err().unwrap_or(0) as usize] += 1;
    }
    for number in [0, 1, 17, 18, 19] {
        assert!(numbers[number] > 100, "answer {number}: {numbers:?}");
    }
}

#[test]
fn measured_lists() {
    for kind in lists::ALL {
        check_lists(kind).unwrap();
    }
}
