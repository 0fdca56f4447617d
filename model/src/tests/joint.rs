//! Joint loading: the words of request F-5, and each refusal by its number.

use crate::case::{Call, MODEL};
use crate::joint::{judge, load_both};
use crate::load::load;
use crate::pair::{After, Pair, Scratch};
use crate::state::State;

/// Loads into a memory of bytes FFh, with a scratch of bytes 55h. Checks what is the same for every
/// pair: which answers change memory and scratch. Gives the answer and the memory.
fn loaded(length: usize, first: &[u8], second: &[u8], room: usize) -> (u32, Vec<u8>) {
    let mut memory = vec![0xFF; length];
    let mut scratch = vec![0x55; room];
    let answer = load_both(&mut memory, first, second, &mut scratch);
    let cleared = answer == 0 || answer == 23;
    assert!(scratch == vec![if cleared { 0 } else { 0x55 }; room], "{answer}");
    assert!(answer == 0 || memory == vec![0xFF; length], "{answer}");
    (answer, memory)
}

/// The answer and the first bytes of a memory of 512.
fn front(first: &[u8], second: &[u8]) -> (u32, [u8; 4]) {
    let (answer, memory) = loaded(512, first, second, 512);
    (answer, memory[..4].try_into().unwrap())
}

fn refused(first: &[u8], second: &[u8]) -> u32 {
    loaded(512, first, second, 600).0
}

#[test]
fn the_last_byte_that_either_puts() {
    assert_eq!(front(&[0], &[0]), (0, [255; 4]));
    assert_eq!(front(&[2, 1, 0], &[0]), (0, [1, 255, 255, 255]));
    assert_eq!(front(&[0], &[2, 1, 0]), (0, [1, 255, 255, 255]));
    assert_eq!(front(&[2, 1, 0], &[1, 0, 0, 0, 2, 2, 3, 0]), (0, [1, 255, 3, 255]));
    assert_eq!(front(&[3, 1, 2, 3, 4, 0], &[1, 0, 0, 0, 1, 4, 0, 1, 2, 0]), (0, [1, 2, 3, 4]));
    // 0 is a byte like others.
    assert_eq!(front(&[2, 0, 0], &[1, 0, 0, 0, 1, 2, 0, 0]), (0, [0, 0, 255, 255]));
    // A list with itself.
    assert_eq!(front(&[3, 1, 2, 3, 4, 0], &[3, 1, 2, 3, 4, 0]), (0, [1, 2, 3, 4]));
}

#[test]
fn the_place_starts_at_0_in_both() {
    assert_eq!(front(&[2, 1, 2, 2, 0], &[2, 1, 0]), (0, [1, 2, 255, 255]));
    assert_eq!(front(&[1, 0, 0, 0, 3, 2, 7, 0], &[2, 1, 0]), (0, [1, 255, 255, 7]));
    assert_eq!(front(&[1, 255, 255, 255, 255, 0], &[2, 1, 0]), (0, [1, 255, 255, 255]));
}

#[test]
fn unequal_last_bytes() {
    assert_eq!(front(&[2, 1, 0], &[2, 2, 0]).0, 23);
    assert_eq!(front(&[2, 0, 0], &[2, 2, 0]).0, 23);
    assert_eq!(front(&[2, 2, 0], &[2, 0, 0]).0, 23);
    for bit in 0..8 {
        assert_eq!(front(&[2, 0x5A, 0], &[2, 0x5A ^ 1 << bit, 0]).0, 23);
    }
    // One address of many; a byte that the memory holds already.
    assert_eq!(front(&[3, 1, 2, 3, 4, 0], &[1, 0, 0, 0, 3, 2, 5, 0]).0, 23);
    assert_eq!(front(&[2, 255, 0], &[2, 1, 0]).0, 23);
    assert_eq!(front(&[2, 1, 0], &[2, 255, 0]).0, 23);
    // The first and the last address.
    for at in [0, 1, 255, 510, 511] {
        let there = [&[1][..], &u32::to_be_bytes(at), &[2, 8, 0]].concat();
        assert_eq!(loaded(512, &[4, 2, 0, 9, 0], &there, 512).0, 23);
        assert_eq!(loaded(512, &there, &[4, 2, 0, 9, 0], 512).0, 23);
        assert_eq!(loaded(512, &there, &[4, 2, 0, 8, 0], 512).0, 0);
    }
}

#[test]
fn earlier_bytes_do_not_matter() {
    let row =
        |bytes: &[u8]| -> Vec<u8> { bytes.iter().flat_map(|byte| [1, 0, 0, 0, 2, 2, *byte]).chain([0]).collect() };
    for (first, second, answer) in [
        (&[1, 2][..], &[2][..], 0),
        (&[2], &[1, 2], 0),
        (&[1, 2], &[3, 2], 0),
        (&[1, 2, 1], &[1], 0),
        (&[2, 1], &[2], 23),
        (&[2], &[2, 1], 23),
        (&[1, 2], &[2, 1], 23),
        (&[1, 2], &[1, 3], 23),
    ] {
        let (found, bytes) = front(&row(first), &row(second));
        assert_eq!((found, bytes[2]), (answer, if answer == 0 { *first.last().unwrap() } else { 255 }));
    }
}

#[test]
fn the_scratch_is_long_enough() {
    let [first, second, clash] = [&[2, 1, 0][..], &[1, 0, 0, 0, 1, 2, 1, 0], &[2, 2, 0]];
    for length in [512, 1_024, 65_536] {
        for room in [0, 1, length / 8, length / 2, length - 1] {
            assert_eq!(loaded(length, first, second, room).0, 22);
            assert_eq!(loaded(length, first, clash, room).0, 22);
        }
        for room in [length, length + 1, length + 512, 3 * length] {
            assert_eq!(loaded(length, first, second, room).0, 0);
            assert_eq!(loaded(length, first, clash, room).0, 23);
        }
    }
}

#[test]
fn whatever_the_scratch_holds() {
    for byte in 0..=255 {
        let mut memory = vec![3; 512];
        let mut scratch = vec![byte; 530];
        assert_eq!(load_both(&mut memory, &[2, 1, 0], &[1, 0, 0, 0, 9, 2, 2, 0], &mut scratch), 0);
        assert!(scratch.iter().all(|byte| *byte == 0));
        assert_eq!((memory[0], memory[1], memory[9], memory[511]), (1, 3, 2, 3));
    }
}

/// So many pieces, with equal bytes at equal places.
fn pieces(count: usize) -> Vec<u8> {
    [[2, 6].repeat(count), vec![0]].concat()
}

#[test]
fn pieces_of_each_list() {
    let [few, most, more] = [pieces(3), pieces(4_096), pieces(4_097)];
    let answer = |first: &[u8], second: &[u8]| loaded(8_192, first, second, 8_192).0;
    assert_eq!([answer(&most, &most), answer(&most, &few), answer(&few, &most)], [0; 3]);
    assert_eq!([answer(&more, &more), answer(&more, &few), answer(&few, &more)], [18; 3]);
    assert_eq!(answer(&pieces(2_049), &pieces(2_049)), 0);
}

#[test]
fn tried_in_that_order() {
    let [unknown, many, outside] = [vec![9, 0], pieces(4_097), vec![1, 0, 1, 0, 0, 2, 1, 0]];
    let [one, other] = [&[2, 1, 0][..], &[2, 2, 0]];
    // 1 before all, whatever is lent besides.
    for length in [0, 1, 511, 513, 16_777_728] {
        for (first, second) in [(one, one), (one, other), (&unknown[..], &many[..]), (&outside, one), (&[], &[])] {
            assert_eq!(loaded(length, first, second, 0).0, 1);
            assert_eq!(loaded(length, first, second, 600).0, 1);
        }
    }
    // Then the first list, then the second, each by its own numbers.
    for (number, first) in [(17, &unknown), (18, &many), (19, &outside)] {
        for second in [&unknown[..], &many, &outside, one, &[]] {
            assert_eq!(loaded(512, first, second, 512).0, number);
            assert_eq!(loaded(512, first, second, 3).0, number);
        }
        assert_eq!(loaded(512, one, first, 512).0, number);
        assert_eq!(loaded(512, one, first, 511).0, number);
    }
    // Then 22, then 23.
    assert_eq!(loaded(512, one, other, 511).0, 22);
    assert_eq!(loaded(512, one, other, 512).0, 23);
    // A clash of lists that are refused doesn't matter.
    assert_eq!(refused(&[one, &[0]].concat(), other), 17);
    assert_eq!(refused(one, &[&other[..2], &outside].concat()), 19);
    assert_eq!(refused(&[2, 7, 0], &pieces(4_097)), 18);
    // No bytes at all are a list that is cut short.
    assert_eq!([refused(&[], &[0]), refused(&[0], &[]), refused(&[], &[])], [17; 3]);
}

#[test]
fn the_greatest_memory() {
    let length = 16_777_216;
    // Runs over nearly all of it, from the front and from the end.
    let run = |from: u32| [&[1][..], &from.to_be_bytes(), &[4, 255, 255, 7].repeat(200), &[0]].concat();
    let end = (length - 200 * 65_535) as u32;
    let (answer, memory) = loaded(length, &run(0), &run(end), length);
    assert!(answer == 0 && memory.iter().all(|byte| *byte == 7));
    let last = [1, 0, 255, 255, 255, 2, 6, 0];
    assert_eq!(loaded(length, &run(0), &last, length).0, 0);
    assert_eq!(loaded(length, &last, &run(end), length + 1).0, 23);
    assert_eq!(loaded(length, &run(0), &run(end), length - 1).0, 22);
    assert_eq!(loaded(length, &run(0), &[1, 1, 0, 0, 0, 2, 6, 0], length).0, 19);
}

/// "Exchanging two lists that load gives the same memory": that of one load after the other.
#[test]
fn exchanged() {
    let mut rng = crate::rng::Rng::new(11);
    let mut loads = 0;
    for _ in 0..3_000 {
        let [first, second] = crate::gen::any_pair::any_lists(&mut rng, 1_024, false);
        let (answer, memory) = loaded(1_024, &first, &second, 1_024);
        let (turned, other) = loaded(1_024, &second, &first, 1_024);
        assert!(memory == other);
        assert_eq!((answer == 0, answer == 23), (turned == 0, turned == 23));
        if answer == 0 {
            let mut one_by_one = vec![0xFF; 1_024];
            assert_eq!((load(&mut one_by_one, &first), load(&mut one_by_one, &second)), (0, 0));
            assert!(memory == one_by_one);
            loads += 1;
        }
    }
    assert!(loads > 1_000);
}

#[test]
fn what_is_left_of_a_scratch() {
    let make = |second: &[u8], scratch: Scratch| {
        let pair = Pair { first: vec![2, 1, 0], second: second.to_vec(), scratch };
        let outcome = MODEL.make(&Call::LoadBoth(pair), &State::zero(5), &mut [0; 512]);
        assert_eq!(outcome.state, State::zero(5));
        (outcome.refusal, outcome.scratch)
    };
    let unclean = Scratch { length: 520, first: 0, add: 1 };
    let zeros = Scratch { length: 520, first: 0, add: 0 };
    for scratch in [unclean, zeros] {
        assert_eq!(make(&[0], scratch), (0, After::Zeros));
        assert_eq!(make(&[2, 2, 0], scratch), (23, After::Zeros));
        assert_eq!(make(&[9], scratch), (17, After::AsBefore));
        assert_eq!(make(&[0], Scratch { length: 9, ..scratch }), (22, After::AsBefore));
        assert_eq!(make(&[0], Scratch { length: 0, ..scratch }), (22, After::AsBefore));
    }
    // Copies that leave something else.
    let leave = |byte: u8| Pair { first: vec![], second: vec![], scratch: Scratch { length: 3, first: byte, add: 0 } };
    let spoil = |_: &mut [u8], _: &[u8], _: &[u8], scratch: &mut [u8]| {
        scratch[2] = 6;
        0
    };
    assert_eq!(leave(0).load(spoil, &mut []), (0, After::Other));
    assert_eq!(leave(5).load(spoil, &mut []), (0, After::Other));
    assert_eq!(leave(6).load(spoil, &mut []), (0, After::AsBefore));
    let clear = |_: &mut [u8], _: &[u8], _: &[u8], scratch: &mut [u8]| {
        scratch.fill(0);
        17
    };
    assert_eq!(leave(6).load(clear, &mut []), (17, After::Zeros));
    assert_eq!(leave(0).load(clear, &mut []), (17, After::AsBefore));
}

#[test]
fn reasons() {
    let why = |first: &[u8], second: &[u8], room: usize| judge(512, first, second, room).unwrap_err().reason;
    assert_eq!(why(&[], &[2], 0), "empty list");
    assert_eq!(why(&[0], &[2], 0), "02h cut short");
    assert_eq!(why(&[0], &[0], 511), "scratch too short");
}
