//! Random pairs of load lists, some of them damaged: the archive and plain Rust must answer alike and leave the same
//! memory and the same scratch.

use crate::check::check_pairs;
use crate::loader::Loader;
use crate::pairs;
use crate::random_lists::{damage, list};
use model::rng::Rng;

/// Two lists that both put bytes of one image agree.
fn image(at: u32) -> u8 {
    (at / 8 * 0x1D) as u8
}

/// A list that puts bytes of the image last, where it puts any.
fn of_image(rng: &mut Rng, length: u32) -> Vec<u8> {
    let mut list = vec![];
    for _ in 0..rng.below(24) {
        let at = rng.below(length.saturating_sub(8).max(1));
        let to = [[0x01].as_slice(), &at.to_be_bytes()].concat();
        // Sometimes another byte first.
        if rng.chance(30) {
            list.extend(&to);
            list.extend([0x02, image(at) ^ 1 << rng.below(8)]);
        }
        list.extend(&to);
        match rng.below(3) {
            0 => list.extend([0x02, image(at)]),
            1 => list.extend([0x03, image(at), image(at + 1), image(at + 2), image(at + 3)]),
            _ => list.extend([0x04, 0, rng.below(9 - at % 8) as u8, image(at)]),
        }
    }
    list
}

/// One more put: of the image, or not.
fn one_more(rng: &mut Rng, list: &mut Vec<u8>, length: u32) {
    let at = rng.below(length.max(1));
    let byte = image(at) ^ if rng.chance(70) { 1 << rng.below(8) } else { 0 };
    list.push(0x01);
    list.extend(at.to_be_bytes());
    list.extend([0x04, 0, 1 + rng.below(3) as u8, byte]);
}

fn pair(rng: &mut Rng, length: u32) -> [Vec<u8>; 2] {
    let mut pair = [0, 1].map(|_| {
        if rng.chance(12) {
            return list(rng, length);
        }
        let mut list = of_image(rng, length);
        if rng.chance(20) {
            one_more(rng, &mut list, length);
        }
        list.push(0x00);
        list
    });
    match rng.below(40) {
        0 => damage(rng, &mut pair[0]),
        1 => damage(rng, &mut pair[1]),
        2 => pair[1] = pair[0].clone(),
        _ => {}
    }
    pair
}

#[test]
fn random_pairs() {
    let mut rng = Rng::new(5);
    let mut numbers = [0u64; 24];
    for case in 0..20000 {
        let length = if rng.chance(5) { rng.below(2000) } else { 512 * (1 + rng.below(3)) };
        let [first, second] = pair(&mut rng, length);
        let lent = match rng.below(10) {
            0 => rng.below(length.max(1)),
            1 => length + rng.below(600),
            _ => length,
        };
        let memory: Vec<u8> = (0..length).map(|at| at as u8).collect();
        let scratch: Vec<u8> = (0..lent).map(|_| rng.word() as u8).collect();
        let left = [Loader::Proved, Loader::Plain].map(|loader| {
            let (mut memory, mut scratch) = (memory.clone(), scratch.clone());
            let answer = loader.load_both(&mut memory, &first, &second, &mut scratch);
            (answer, memory, scratch)
        });
        assert!(left[0] == left[1], "case {case}, memory {length}: {first:02X?}, {second:02X?}");
        let (answer, left_memory, left_scratch) = &left[0];
        let number = answer.err().unwrap_or(0);
        assert!(number == 0 || *left_memory == memory, "case {case}: refused lists have changed memory");
        if number == 0 || number == 23 {
            assert!(left_scratch.iter().all(|byte| *byte == 0), "case {case}: the scratch is not all zeros");
        } else {
            assert!(*left_scratch == scratch, "case {case}: the scratch has changed");
        }
        numbers[number as usize] += 1;
    }
    for number in [0, 1, 17, 18, 19, 22, 23] {
        assert!(numbers[number] > 100, "answer {number}: {numbers:?}");
    }
}

#[test]
fn measured_pairs() {
    for kind in pairs::ALL {
        check_pairs(kind).unwrap();
    }
}
