//! Random and damaged load lists, alone and in pairs: nothing panics, everything ends, the number is the library's own, and
//! the place that is told is there.

mod support;

use desk::load::{self, Which, Why};
use std::collections::BTreeMap;
use support::{desk, file, text, written, Random};

/// Commands with sensible operands, and an end; now and then so many that their pieces, three in four, are about 4,096.
fn random_list(random: &mut Random) -> Vec<u8> {
    let count = if random.below(100) == 0 { 5400 + random.below(140) } else { random.below(20) };
    let mut list = Vec::new();
    for _ in 0..count {
        match random.below(8) {
            0 | 1 => {
                let any = random.next() as u32;
                let to =
                    *random.pick(&[0, 0x1FF, 0x200, 0x3FE, 0x400, 0xFF_FFFE, 0x100_0000, u32::MAX, any, any % 2048]);
                list.push(1);
                list.extend(to.to_be_bytes());
            }
            2 | 3 => list.extend([2, random.next() as u8]),
            4 | 5 => {
                list.push(3);
                list.extend((random.next() as u32).to_be_bytes());
            }
            _ => {
                let any = random.next() as u16;
                let count = *random.pick(&[0, 1, 2, 511, 512, 0xFFFF, any % 300]);
                list.push(4);
                list.extend(count.to_be_bytes());
                list.push(random.next() as u8);
            }
        }
    }
    list.push(0);
    list
}

/// A list with some bytes changed, left out, put in, cut off or added; a third of them as they were.
fn damaged(random: &mut Random, mut list: Vec<u8>) -> Vec<u8> {
    for _ in 0..*random.pick(&[0, 0, 1, 1, 2, 3]) {
        let at = random.below(list.len() as u64 + 1) as usize;
        let byte = if random.below(2) == 0 { random.below(6) as u8 } else { random.next() as u8 };
        match random.below(5) {
            0 => list.truncate(at),
            1 => list.push(byte),
            2 => list.insert(at, byte),
            _ if at == list.len() => {}
            3 => drop(list.remove(at)),
            _ => list[at] = byte,
        }
    }
    list
}

/// All that is said of a list for a memory of a length fits what the library answers; gives the number.
fn judged(list: &[u8], length: usize) -> u32 {
    let mut memory = vec![0; length];
    let answer = midesk::load(&mut memory, list);
    let number = answer.map_or_else(|refusal| refusal.number(), |()| 0);
    let mut out = Vec::new();
    let status = load::show(&mut out, "list", list, Some(length)).expect("memory can be written");
    let shown = String::from_utf8(out).expect("UTF-8");
    assert!(shown.ends_with('\n') && !shown.contains("no words for"), "{shown}");
    match load::memory(list, Some(length)) {
        Ok(loaded) => {
            assert!(number == 0 && status == 0 && loaded == memory);
            assert_eq!(load::find(list, length), None);
            assert!(shown.contains("\nit loads into a memory of "), "{shown}");
        }
        Err(refused) => {
            assert!(memory.iter().all(|byte| *byte == 0), "a refused list has changed memory");
            assert_eq!((refused.refusal.number(), u32::from(status)), (number, 32 + number), "{list:02X?}");
            let found = refused.wrong().map(|wrong| wrong.number());
            assert_eq!(found, (number != 1).then_some(number), "{list:02X?}");
            assert!(shown.contains(&format!("\nrefusal {number}: ")), "{shown}");
        }
    }
    number
}

#[test]
fn every_list_is_answered_as_the_library_does() {
    let mut random = Random(0xF1);
    let parts = std::fs::read(file("examples/parts.load")).expect("the list");
    let mut numbers = BTreeMap::new();
    for _ in 0..30_000 {
        let list = match random.below(4) {
            0 => parts.clone(),
            1 => (0..random.below(40)).map(|_| random.below(7) as u8).collect(),
            _ => random_list(&mut random),
        };
        let list = damaged(&mut random, list);
        let length = *random.pick(&[512, 512, 1024, 1024, 1536, 2048, 65_536, 65_536, 65_536, 0, 1025]);
        *numbers.entry(judged(&list, length)).or_insert(0) += 1;
    }
    assert!([0, 1, 17, 18, 19].iter().all(|number| numbers.get(number) > Some(&20)), "{numbers:?}");
}

/// The length that is taken where none is given is the least: it holds the list, and one frame less does not.
#[test]
fn the_length_is_the_least() {
    let mut random = Random(0xF2);
    for _ in 0..300 {
        let list = random_list(&mut random);
        let length = load::least_length(&list);
        match load::memory(&list, None) {
            Ok(memory) => {
                assert_eq!(memory.len(), length);
                let shorter = load::memory(&list, Some(length - 512)).map_err(|refused| refused.refusal.number());
                assert_eq!(shorter.err(), Some(if length == 512 { 1 } else { 19 }));
            }
            Err(refused) if refused.refusal.number() == 19 => assert_eq!(length, 16_777_216),
            Err(refused) => assert_eq!(refused.refusal.number(), 18),
        }
    }
}

/// The same at the command line.
#[test]
fn the_verbs_answer() {
    let mut random = Random(0xF3);
    let parts = std::fs::read(file("examples/parts.load")).expect("the list");
    for _ in 0..60 {
        let list = damaged(&mut random, parts.clone());
        let path = written("fuzz.load", &list);
        let mut memory = vec![0; load::least_length(&list)];
        let expected = midesk::load(&mut memory, &list).map_or_else(|refusal| 32 + refusal.number() as i32, |()| 0);
        for verb in ["load", "list"] {
            let output = desk(&[verb, &path]);
            assert_eq!(output.status.code(), Some(expected), "{verb}: {}", text(&output.stderr));
        }
        let run = desk(&["run", &path, "--steps", "1000"]).status.code();
        assert!(run == Some(expected) || expected == 0, "{run:?}");
    }
}

/// A list that puts few different bytes at few places, at 0 and at the end of 512 bytes among them; now and then about 4,096
/// pieces, with bytes of their own where they are many.
fn narrow_list(random: &mut Random, like: &[u8]) -> Vec<u8> {
    let mut list = Vec::new();
    if random.below(3) == 0 {
        list.extend(like.split_last().map_or(&[][..], |(_, commands)| commands));
    }
    let bytes = *random.pick(&[1, 1, 2, 2, 3]);
    for _ in 0..random.below(8) {
        list.push(1);
        list.extend((*random.pick(&[0, 1, 4, 0x80, 0x1F0, 0x1FC, 0x1FF]) + random.below(2) as u32).to_be_bytes());
        for _ in 0..random.below(4) {
            let mut byte = || random.below(bytes) as u8;
            match [byte(), byte(), byte(), byte()] {
                [a, ..] if random.below(3) == 0 => list.extend([2, a]),
                [a, b, c, d] if random.below(2) == 0 => list.extend([3, a, b, c, d]),
                [a, ..] => list.extend([4, 0, random.below(9) as u8, a]),
            }
        }
    }
    if random.below(60) == 0 {
        let pieces = 4090 + random.below(10);
        list.extend((0..pieces).flat_map(|_| [4, 0, 0, 0]));
    }
    list.push(0);
    list
}

/// What a list that can be loaded puts, worked out byte by byte: at each address the last byte and where its command stands.
fn last_bytes(list: &[u8]) -> BTreeMap<u64, (u8, usize)> {
    let (mut found, mut at, mut place) = (BTreeMap::new(), 0, 0);
    loop {
        let (bytes, width) = match list[at..] {
            [0, ..] => return found,
            [1, a, b, c, d, ..] => {
                place = u64::from(u32::from_be_bytes([a, b, c, d]));
                (vec![], 5)
            }
            [2, a, ..] => (vec![a], 2),
            [3, a, b, c, d, ..] => (vec![a, b, c, d], 5),
            [4, high, low, byte, ..] => (vec![byte; usize::from(u16::from_be_bytes([high, low]))], 4),
            _ => panic!("{list:02X?} is no list"),
        };
        for byte in bytes {
            found.insert(place, (byte, at));
            place += 1;
        }
        at += width;
    }
}

/// All that is said of two lists for a memory of a length fits what the library answers, and that a simple computation;
/// gives the number.
fn both_judged(first: &[u8], second: &[u8], length: usize) -> u32 {
    let (mut memory, mut scratch) = (vec![0xA5; length], vec![0x5A; length + first.len() % 3]);
    let answer = midesk::load_both(&mut memory, first, second, &mut scratch);
    let number = answer.map_or_else(|refusal| refusal.number(), |()| 0);
    let alone = |list: &[u8]| midesk::load(&mut vec![0; length], list).map_or_else(|refusal| refusal.number(), |()| 0);
    let (one, other) = (alone(first), alone(second));
    let mut out = Vec::new();
    let status = load::show_both(&mut out, ("one", first), ("other", second), Some(length)).expect("memory");
    let shown = String::from_utf8(out).expect("UTF-8");
    assert!(shown.ends_with('\n') && !shown.contains("no words for"), "{shown}");
    assert_eq!(u32::from(status), if number == 0 { 0 } else { 32 + number }, "{shown}");
    let refused = load::both(first, second, Some(length));
    if one != 0 || other != 0 {
        let refused = refused.expect_err("a refusal");
        let (which, file) = if one != 0 { (Which::First, "one") } else { (Which::Second, "other") };
        assert_eq!((number, refused.refusal.number()), (if one != 0 { one } else { other }, number), "{shown}");
        match refused.why {
            Why::Other => assert!(number == 1 && shown.contains("\none: refusal 1: "), "{shown}"),
            Why::List(told, _) => {
                let sentence = format!("\n{file}: refusal {number} of the {} list: ", which.word());
                assert!(told == which && number != 1 && shown.contains(&sentence), "{shown}");
            }
            Why::Clash(clash) => panic!("{clash:?}"),
        }
        assert!(memory.iter().all(|byte| *byte == 0xA5) && scratch.iter().all(|byte| *byte == 0x5A));
        return number;
    }
    let (one, other) = (last_bytes(first), last_bytes(second));
    let both: Vec<u64> = one.keys().filter(|address| other.contains_key(address)).copied().collect();
    let clashing: Vec<u64> = both.iter().filter(|address| one[address].0 != other[address].0).copied().collect();
    let shared = load::shared(first, second);
    let addresses = |covered: Vec<(u64, u64)>| covered.into_iter().flat_map(|(from, to)| from..to).collect::<Vec<_>>();
    assert_eq!(addresses(shared.both.ranges().collect()), both, "{first:02X?} {second:02X?}");
    assert_eq!(addresses(shared.clashing.ranges().collect()), clashing, "{first:02X?} {second:02X?}");
    assert!(scratch.iter().all(|byte| *byte == 0), "the scratch is not cleared");
    match (clashing.first(), refused) {
        (None, Ok(loaded)) => {
            assert!(number == 0 && shown.contains("\nthey load together into a memory of "), "{shown}");
            let (mut expected, mut fresh) = (vec![0xA5; length], vec![0; length]);
            for (address, (byte, _)) in one.iter().chain(&other) {
                (expected[*address as usize], fresh[*address as usize]) = (*byte, *byte);
            }
            assert!(memory == expected && loaded == fresh, "{first:02X?} {second:02X?}");
        }
        (Some(address), Err(refused)) => {
            assert_eq!((number, refused.refusal.number()), (23, 23));
            let Why::Clash(clash) = refused.why else { panic!("{shown}") };
            let told = |(byte, putting): (u8, load::Putting)| (byte, putting.command.offset);
            assert_eq!((clash.address, clash.count), (*address, clashing.len() as u64));
            assert_eq!((told(clash.first), told(clash.second)), (one[address], other[address]), "{shown}");
            assert!(shown.contains("\none and other: refusal 23: two unequal last bytes"), "{shown}");
            assert!(memory.iter().all(|byte| *byte == 0xA5), "a refused pair has changed memory");
        }
        _ => panic!("the library answers {number}: {first:02X?} {second:02X?}"),
    }
    number
}

/// Pairs of lists; a third of them damaged.
fn random_pair(random: &mut Random, parts: &[u8]) -> (Vec<u8>, Vec<u8>) {
    let first = match random.below(6) {
        0 => parts.to_vec(),
        1 => random_list(random),
        _ => narrow_list(random, &[]),
    };
    let second = match random.below(6) {
        0 => random_list(random),
        1 => first.clone(),
        _ => narrow_list(random, &first),
    };
    match random.below(9) {
        0 => (damaged(random, first), second),
        1 => (first, damaged(random, second)),
        2 => (damaged(random, first), damaged(random, second)),
        _ => (first, second),
    }
}

#[test]
fn every_pair_is_answered_as_the_library_does() {
    let mut random = Random(0xF5);
    let parts = std::fs::read(file("examples/parts.load")).expect("the list");
    let mut numbers = BTreeMap::new();
    for _ in 0..30_000 {
        let (first, second) = random_pair(&mut random, &parts);
        let length = *random.pick(&[512, 1024, 1024, 1536, 1536, 2048, 65_536, 0, 1025]);
        *numbers.entry(both_judged(&first, &second, length)).or_insert(0) += 1;
    }
    assert!([0, 1, 17, 18, 19, 23].iter().all(|number| numbers.get(number) > Some(&20)), "{numbers:?}");
}

/// The same at the command line, with the least length.
#[test]
fn the_verbs_answer_of_pairs() {
    let mut random = Random(0xF6);
    let parts = std::fs::read(file("examples/parts.load")).expect("the list");
    for _ in 0..60 {
        let (first, second) = random_pair(&mut random, &parts);
        let length = load::least_length(&first).max(load::least_length(&second));
        let answer = midesk::load_both(&mut vec![0; length], &first, &second, &mut vec![0; length]);
        let expected = answer.map_or_else(|refusal| 32 + refusal.number() as i32, |()| 0);
        let (first, second) = (written("fuzz_1.load", &first), written("fuzz_2.load", &second));
        for verb in ["load", "list"] {
            let output = desk(&[verb, &first, "--with", &second]);
            assert_eq!(output.status.code(), Some(expected), "{verb}: {}", text(&output.stderr));
        }
        let run = desk(&["run", &first, "--with", &second, "--steps", "1000"]).status.code();
        assert!(run == Some(expected) || expected == 0, "{run:?}");
    }
}
