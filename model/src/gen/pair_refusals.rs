//! Pairs of load lists that are refused: by 1, by either list's 17 to 19, by 22, and their order.

use super::family_rng;
use super::lists::{desk, pieces, row};
use super::pairs::{together, unclean};
use crate::asm::{list, unended};
use crate::case::{Call, Case};
use crate::load::Command::*;
use crate::pair::{Pair, Scratch};
use crate::rng::Rng;

/// A case of pairs, one after another on one memory, each with a scratch that is long enough.
fn case(rng: &mut Rng, length: u32, pairs: &[[Vec<u8>; 2]]) -> Case {
    let mut maker = desk(rng, length);
    for [first, second] in pairs {
        let call = together(rng, length, first.clone(), second.clone());
        maker.call(call);
    }
    maker.finish()
}

/// Both orders of a list and another.
fn either(one: &[u8], other: &[u8]) -> [[Vec<u8>; 2]; 2] {
    [[one.to_vec(), other.to_vec()], [other.to_vec(), one.to_vec()]]
}

/// Ways to be refused by 17.
const UNREADABLE: [&[u8]; 12] = [
    &[],
    &[0x05, 0],
    &[0xFF, 0],
    &[1, 0, 0, 0],
    &[2],
    &[3],
    &[3, 1, 2, 3],
    &[4, 0],
    &[4, 0, 1],
    &[0, 0],
    &[0, 2],
    &[0, 2, 1, 0],
];

/// Either list's 17, 18 and 19, beside a list that is fine.
pub fn lists() -> Vec<Case> {
    let mut rng = family_rng("both lists");
    let rng = &mut rng;
    let mut cases = Vec::new();
    let good = |rng: &mut Rng| list(&[Move(0x21 + rng.below(99)), Byte(0xAB), Four(rng.word().to_be_bytes())]);
    for way in UNREADABLE {
        let bad = [unended(&pieces(rng)), way.to_vec()].concat();
        let good = good(rng);
        cases.push(case(rng, 512, &[either(way, &good), either(&bad, &good), either(way, &bad)].concat()));
        cases.push(case(rng, 512, &either(&bad, &list(&[]))));
    }
    // As many pieces as are allowed, in one list, in both, and together; one more.
    let fine = good(rng);
    let [few, half, most, more] = [&fine, &list(&row(2_049)), &list(&row(4_096)), &list(&row(4_097))];
    cases.push(case(rng, 8_192, &[[most.clone(), most.clone()]]));
    cases.push(case(rng, 8_192, &[[half.clone(), half.clone()]]));
    cases.extend(either(most, few).map(|pair| case(rng, 8_192, &[pair])));
    cases.extend(either(most, &list(&[])).map(|pair| case(rng, 4_096, &[pair])));
    cases.extend(either(more, few).map(|pair| case(rng, 8_192, &[pair])));
    cases.push(case(rng, 8_192, &[[more.clone(), more.clone()]]));
    cases.push(case(rng, 512, &either(&list(&vec![Byte(3); 257]), few)));
    // Puts outside memory.
    for length in [512, 1_024] {
        for piece in pieces(rng) {
            let size = piece.bytes().len() as u32;
            let mut pairs = Vec::new();
            for at in [length - size + 1, length - 1, length, 0x0100_0000, 0u32.wrapping_sub(size)] {
                if at.wrapping_add(size) > length || at >= length {
                    let bad = list(&[Byte(0x51), Move(at), piece]);
                    pairs.extend(either(&bad, &good(rng)));
                    pairs.push([bad.clone(), bad]);
                }
            }
            cases.push(case(rng, length, &pairs));
            // Up to the last byte, in both lists.
            let end = list(&[Move(length - size), piece]);
            cases.push(case(rng, length, &[[end.clone(), end]]));
        }
        // Nothing is put outside; neither list goes on where the other ends.
        let none = list(&[Byte(0x52), Move(length), Copies(0, 1), Move(u32::MAX)]);
        cases.push(case(rng, length, &either(&none, &list(&[Byte(0x52), Byte(0x53)]))));
        let last = list(&[Move(length - 1), Byte(0x54)]);
        cases.push(case(rng, length, &either(&last, &list(&[Byte(0x55), Byte(0x56)]))));
    }
    cases
}

/// Number 22 and its border, and what becomes of the scratch.
pub fn scratches() -> Vec<Case> {
    let mut rng = family_rng("both scratches");
    let rng = &mut rng;
    let mut cases = Vec::new();
    let two = |clash: bool| {
        let first = list(&[Move(40), Four([0x61, 0x62, 0x63, 0x64]), Byte(0x65)]);
        let second = list(&[Move(42), Four([0x63, 0x64, if clash { 0x66 } else { 0x65 }, 0x67])]);
        [first, second]
    };
    for length in [512u32, 1_024, 4_096, 65_536] {
        let mut lengths = vec![0, 1, 9, length / 8, length / 2, 511, 512, length - 512, length - 1, length];
        lengths.extend([length + 1, length + 255, length + 512, 65_535, 65_536]);
        lengths.retain(|room| *room <= 65_536);
        lengths.sort();
        lengths.dedup();
        // Those that change no memory in one case; each pair that loads in its own.
        let mut maker = desk(rng, length);
        for clash in [false, true] {
            let [first, second] = two(clash);
            for room in &lengths {
                if *room < length || clash {
                    let scratch = unclean(rng, *room);
                    maker.call(Call::LoadBoth(Pair { first: first.clone(), second: second.clone(), scratch }));
                }
            }
        }
        cases.push(maker.finish());
        let [first, second] = two(false);
        for room in lengths.into_iter().filter(|room| *room >= length) {
            let mut maker = desk(rng, length);
            let scratch = unclean(rng, room);
            maker.call(Call::LoadBoth(Pair { first: first.clone(), second: second.clone(), scratch }));
            cases.push(maker.finish());
        }
    }
    // Whatever it holds before: zeros, one byte throughout, a few bytes of the lists.
    let [first, second] = two(false);
    let cut = [first[..first.len() - 1].to_vec(), second[..second.len() - 1].to_vec()];
    let outside = list(&[Byte(0x68), Move(512), Byte(0x69)]);
    let [few, many] = [first.clone(), list(&row(4_097))];
    let pairs = [
        [first.clone(), second.clone()],
        two(true),
        [cut[0].clone(), second.clone()],
        [first.clone(), cut[1].clone()],
        [outside.clone(), second.clone()],
        [first.clone(), outside],
    ];
    for (start, add) in [(0, 0), (1, 0), (0x61, 0), (0xFF, 0), (0, 1), (0x39, 1), (0x80, 0x80), (0, 0x80)] {
        let mut maker = desk(rng, 512);
        for [first, second] in &pairs {
            for length in [512, 700, 511, 100, 0] {
                let scratch = Scratch { length, first: start, add };
                maker.call(Call::LoadBoth(Pair { first: first.clone(), second: second.clone(), scratch }));
            }
        }
        cases.push(maker.finish());
    }
    // The same with too many pieces, which make a long case.
    for (i, lengths) in [[512, 512], [513, 513], [511, 511], [100, 0]].into_iter().enumerate() {
        let mut maker = desk(rng, 512);
        for (length, start) in lengths.into_iter().zip([0, 7]) {
            let scratch = Scratch { length, first: start, add: start };
            let [first, second] = if (i + start as usize) % 2 == 0 { [&few, &many] } else { [&many, &few] };
            maker.call(Call::LoadBoth(Pair { first: first.clone(), second: second.clone(), scratch }));
        }
        cases.push(maker.finish());
    }
    cases
}

/// What a pair can break, in the order in which it is tried: 1, the first list's 17 to 19, the
/// second's, 22, 23.
pub const TRIED: usize = 9;

/// Lists and a scratch that break these of them and no other, with the length of their memory.
fn breaking(rng: &mut Rng, breaks: [bool; TRIED]) -> (u32, Pair) {
    let [one, f17, f18, f19, s17, s18, s19, short, clash] = breaks;
    let mut length = if f18 || s18 { 8_192 } else { 512 * (1 + rng.below(3)) };
    if one {
        length += rng.pick(&[1, 511]);
    }
    // Both put the same bytes, but for a clash.
    let mut lists = [f18, s18].map(|many| if many { row(4_097) } else { row(9) });
    for (i, outside) in [f19, s19].into_iter().enumerate() {
        let byte = if clash && i == 1 { 0x72 } else { 0x71 };
        let mut more = vec![vec![Move(300), Byte(byte), Four([0x73; 4])]];
        if outside {
            let at = rng.pick(&[length, length + 77, 0x0100_0000, u32::MAX]);
            more.insert(rng.below(2) as usize, vec![Move(at), Byte(0x74)]);
        }
        let (front, back) = (more.concat(), std::mem::take(&mut lists[i]));
        // What is outside may stand before or after too many pieces.
        lists[i] = if rng.chance(50) { [front, vec![Move(0)], back].concat() } else { [back, front].concat() };
    }
    let bytes = [(&lists[0], f17), (&lists[1], s17)].map(|(commands, unreadable)| {
        let way = rng.below(UNREADABLE.len() as u32) as usize;
        [unended(commands), if unreadable { UNREADABLE[way].to_vec() } else { vec![0] }].concat()
    });
    let room = if short { rng.pick(&[0, 1, 256, length - 1]) } else { length };
    let [first, second] = bytes;
    (length, Pair { first, second, scratch: unclean(rng, room) })
}

/// Every two that a pair can break, and nearly all at once.
pub fn orders() -> Vec<Case> {
    let mut rng = family_rng("both orders");
    let rng = &mut rng;
    let mut all = Vec::new();
    for a in 0..TRIED {
        for b in a..TRIED {
            all.push(std::array::from_fn(|i| i == a || i == b));
        }
    }
    for a in [0, 1, 3, 4, 6] {
        all.push(std::array::from_fn(|i| i >= a && i != 5));
    }
    let mut cases = Vec::new();
    for breaks in all {
        let rounds = if breaks[2] || breaks[5] { 1 } else { 3 };
        let (length, pair) = breaking(rng, breaks);
        let mut maker = desk(rng, length);
        maker.call(Call::LoadBoth(pair));
        for _ in 1..rounds {
            let (other, pair) = breaking(rng, breaks);
            if other == length {
                maker.call(Call::LoadBoth(pair));
            }
        }
        cases.push(maker.finish());
    }
    // A clash before or after what refuses a list.
    for (i, piece) in pieces(rng).into_iter().enumerate() {
        let byte = !piece.bytes()[0];
        let clash = [Move(70), Byte(byte)];
        let first = list(&[Move(70), piece]);
        let outside = [Move(if i == 0 { 512 } else { 0x0100_0000 }), piece];
        let seconds = [
            list(&[&clash[..], &outside].concat()),
            list(&[&outside[..], &clash].concat()),
            [unended(&clash), vec![7, 0]].concat(),
            [vec![3], unended(&clash)].concat(),
        ];
        let pairs: Vec<_> = seconds.iter().flat_map(|second| either(&first, second)).collect();
        cases.push(case(rng, 512, &pairs));
    }
    // Lengths that 1 refuses, with pairs that would load, clash or be refused.
    let good = list(&[Move(2), Byte(0x81), Four([0x82; 4]), Copies(3, 0x83)]);
    for length in [0, 1, 2, 80, 511, 513, 1_023, 1_025, 4_100, 65_535] {
        let mut maker = desk(rng, length);
        for [first, second] in [
            [good.clone(), good.clone()],
            [good.clone(), list(&[Move(2), Byte(0x84)])],
            [vec![], good.clone()],
            [good.clone(), vec![9]],
            [list(&[]), list(&[])],
        ] {
            for room in [length, 0, length.saturating_sub(1), length / 2, 65_536] {
                let zeros = Scratch { length: room, first: 0, add: 0 };
                let scratch = if rng.chance(25) { zeros } else { unclean(rng, room) };
                maker.call(Call::LoadBoth(Pair { first: first.clone(), second: second.clone(), scratch }));
            }
        }
        cases.push(maker.finish());
    }
    cases
}
