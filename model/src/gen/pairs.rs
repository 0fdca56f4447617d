//! Pairs of load lists that load together, pairs that clash (request F-5), and random ones.

use super::any_pair::any_pair;
use super::family_rng;
use super::lists::{desk, row};
use super::maker::Maker;
use crate::asm::list;
use crate::case::{Call, Case};
use crate::load::Command::{self, *};
use crate::pair::{Pair, Scratch};
use crate::rng::Rng;

/// The commands of two lists.
pub type Two = [Vec<Command>; 2];

/// A scratch of so many bytes, hardly any of them 0.
pub fn unclean(rng: &mut Rng, length: u32) -> Scratch {
    Scratch { length, first: rng.word() as u8, add: rng.word() as u8 | 1 }
}

/// Two lists that are loaded together, with a scratch as long as the memory.
pub fn together(rng: &mut Rng, length: u32, first: Vec<u8>, second: Vec<u8>) -> Call {
    let longer = if rng.chance(20) && length < 60_000 { 1 + rng.below(300) } else { 0 };
    Call::LoadBoth(Pair { first, second, scratch: unclean(rng, length + longer) })
}

/// A case of pairs, one after another on one memory.
pub fn case(rng: &mut Rng, length: u32, pairs: &[Two]) -> Case {
    let mut maker = desk(rng, length);
    for [first, second] in pairs {
        let call = together(rng, length, list(first), list(second));
        maker.call(call);
    }
    maker.finish()
}

/// The pairs in one case, and exchanged in another.
fn turned(rng: &mut Rng, length: u32, pairs: &[Two]) -> [Case; 2] {
    let other: Vec<Two> = pairs.iter().map(|[first, second]| [second.clone(), first.clone()]).collect();
    [case(rng, length, pairs), case(rng, length, &other)]
}

/// A piece of a kind (02h, 03h, 04h with a count of 5) that puts these bytes; 04h puts the first.
fn piece(kind: usize, bytes: &[u8]) -> Command {
    match kind {
        0 => Byte(bytes[0]),
        1 => Four([bytes[0], bytes[1], bytes[2], bytes[3]]),
        _ => Copies(5, bytes[0]),
    }
}

const SIZES: [usize; 3] = [1, 4, 5];

/// A piece of each of two kinds, the second from four bytes before the first to five past it. They
/// agree where they overlap, or differ there in one byte at least.
fn overlap(rng: &mut Rng, kinds: [usize; 2], shift: usize, clash: bool) -> Two {
    let at = [4, shift];
    let mut bytes: [u8; 16] = std::array::from_fn(|_| rng.word() as u8);
    let fill = rng.word() as u8;
    for i in 0..2 {
        if kinds[i] == 2 {
            bytes[at[i]..at[i] + 5].fill(fill);
        }
    }
    let first = piece(kinds[0], &bytes[at[0]..]);
    let from = at[0].max(at[1]);
    let to = (at[0] + SIZES[kinds[0]]).min(at[1] + SIZES[kinds[1]]);
    if clash && from < to {
        let change = 1 + rng.below(255) as u8;
        let place = if kinds[1] == 2 { at[1] } else { from + rng.below((to - from) as u32) as usize };
        bytes[place] ^= change;
    }
    let second = piece(kinds[1], &bytes[at[1]..]);
    let base = 4 + 40 * shift;
    [vec![Move((base + at[0]) as u32), first], vec![Move((base + at[1]) as u32), second]]
}

/// Pairs that load: over each other and apart.
pub fn agreeing() -> Vec<Case> {
    let mut rng = family_rng("both agreeing");
    let rng = &mut rng;
    let mut cases = Vec::new();
    // Lists of their end alone, with each piece, moved and not: the second's place starts at 0 too.
    for kind in 0..3 {
        let bytes = rng.word().to_be_bytes();
        let some = [Move(0x91), piece(kind, &bytes)];
        let front = [piece(kind, &bytes)];
        cases.extend(turned(rng, 512, &[[vec![], some.to_vec()]]));
        cases.extend(turned(rng, 512, &[[vec![], front.to_vec()]]));
        cases.extend(turned(rng, 1024, &[[some.to_vec(), front.to_vec()]]));
        cases.extend(turned(rng, 1024, &[[vec![some[0], some[1], Move(700)], [&front[..], &[Byte(1)]].concat()]]));
        cases.extend(turned(rng, 512, &[[[&some[..], &[Move(0xFFFF_FFFF)]].concat(), front.to_vec()]]));
        // A list with itself.
        cases.push(case(rng, 512, &[[some.to_vec(), some.to_vec()], [front.to_vec(), front.to_vec()]]));
    }
    cases.push(case(rng, 512, &[[vec![], vec![]]]));
    cases.push(case(rng, 512, &[[vec![Move(9)], vec![Copies(0, 1)]]]));
    // Each piece over each, with equal bytes.
    for first in 0..3 {
        for second in 0..3 {
            let pairs: Vec<Two> = (0..10).map(|shift| overlap(rng, [first, second], shift, false)).collect();
            cases.push(case(rng, 512, &pairs));
        }
    }
    // Each piece right before each.
    for first in 0..3 {
        let mut pairs = Vec::new();
        for second in 0..3 {
            let [one, other] = [rng.word().to_be_bytes(), rng.word().to_be_bytes()];
            let at = 100 * second as u32;
            let size = SIZES[first] as u32;
            pairs.push([vec![Move(at), piece(first, &one)], vec![Move(at + size), piece(second, &other)]]);
        }
        cases.extend(turned(rng, 512, &pairs));
    }
    cases.extend(apart(rng));
    cases.extend(runs(rng));
    cases.extend(again(rng));
    cases
}

/// Bytes of every second address.
fn comb(rng: &mut Rng, from: u32, to: u32) -> Vec<Command> {
    (from..to).step_by(2).flat_map(|at| [Move(at), Byte(rng.word() as u8)]).collect()
}

/// Pairs that have no address in common.
fn apart(rng: &mut Rng) -> Vec<Case> {
    let mut cases = Vec::new();
    let combs = [comb(rng, 0, 512), comb(rng, 1, 512)];
    cases.extend(turned(rng, 512, &[combs]));
    cases.extend(turned(rng, 512, &[[vec![Copies(256, 0x61)], vec![Move(256), Copies(256, 0x62)]]]));
    cases.extend(turned(rng, 1024, &[[vec![Byte(0x63)], vec![Move(1023), Byte(0x64)]]]));
    cases.extend(turned(rng, 1024, &[[row(512), [vec![Move(512)], row(512)].concat()]]));
    cases.extend(turned(rng, 1024, &[[vec![Move(511), Byte(0x65)], vec![Move(512), Byte(0x66)]]]));
    cases.extend(turned(rng, 65_536, &[[vec![Move(0xFFFF), Byte(0x67)], vec![Move(0x00FF), Byte(0x68)]]]));
    cases
}

/// Long runs over each other; most of the bytes are put back, which keeps the cases small.
fn runs(rng: &mut Rng) -> Vec<Case> {
    let mut cases = Vec::new();
    for (from, count) in [(0, 512), (0, 300), (150, 300), (211, 301), (511, 1), (0, 1)] {
        let second = vec![Move(from), Copies(count, 0x71)];
        cases.push(case(rng, 512, &[[vec![Copies(512, 0x71)], second]]));
    }
    // A run of other bytes with a hole that is mended.
    let holed = vec![Copies(200, 0x72), Copies(200, 0x73), Move(150), Copies(50, 0x73)];
    cases.extend(turned(rng, 512, &[[holed, vec![Move(150), Copies(250, 0x73)]]]));
    for count in [32_768, 65_535] {
        let mut maker = Maker::new(Rng::new(rng.next()), 65_536);
        let lists = [vec![Copies(count, 0xC3)], vec![Move(9), Copies(count - 9, 0xC3), Byte(0x3C)]];
        let back = [vec![Move(5), Copies(40, 0), Copies(700, 0)], vec![Move(12), Copies(count - 12, 0)]];
        for [first, second] in [lists, back] {
            let call = together(rng, 65_536, list(&first), list(&second));
            maker.call(call);
        }
        cases.push(maker.finish());
    }
    cases
}

/// Loads and pairs one after another: nothing is kept from one call to the next.
fn again(rng: &mut Rng) -> Vec<Case> {
    let mut cases = Vec::new();
    for round in 0..4 {
        let mut maker = desk(rng, 512);
        for i in 0..4 {
            let at = 60 * i;
            let bytes: [[u8; 4]; 3] = std::array::from_fn(|_| rng.word().to_be_bytes());
            let lists = [vec![Move(at), Four(bytes[0])], vec![Move(at + 4), Four(bytes[1]), Byte(!bytes[2][0])]];
            let over = [vec![Move(at + 2), Four(bytes[2])], vec![Move(at + 7), Four(bytes[0])]];
            let clash = [vec![Move(at), Four(bytes[0])], vec![Move(at + 3), Byte(!bytes[0][3])]];
            let alone = list(&[Move(at + 1), Byte(bytes[2][3])]);
            let mut calls: Vec<Call> = [lists, over, clash]
                .iter()
                .map(|[first, second]| together(rng, 512, list(first), list(second)))
                .collect();
            calls.insert((i as usize + round) % 4, Call::Load(alone));
            for call in calls {
                maker.call(call);
            }
        }
        cases.push(maker.finish());
    }
    cases
}

/// Bytes that two lists put at one address, one after another.
const ROWS: [(&str, &str); 22] = [
    ("c", "c"),
    ("c", "x"),
    ("xc", "c"),
    ("c", "xc"),
    ("xc", "yc"),
    ("xc", "xc"),
    ("xyc", "yxc"),
    ("cxc", "c"),
    ("c", "cxc"),
    ("cxc", "xcxc"),
    ("xxc", "cc"),
    ("cx", "c"),
    ("c", "cx"),
    ("cx", "xc"),
    ("xc", "cx"),
    ("cx", "cy"),
    ("xc", "xy"),
    ("xc", "x"),
    ("x", "xc"),
    ("xc", "yx"),
    ("", "xc"),
    ("xc", ""),
];

/// Pairs whose puts before the last ones differ, or agree: the last ones decide.
pub fn earlier() -> Vec<Case> {
    let mut rng = family_rng("both earlier");
    let rng = &mut rng;
    let mut cases = Vec::new();
    for kind in 0..3 {
        let mut pairs = Vec::new();
        for (i, (first, second)) in ROWS.into_iter().enumerate() {
            let at = 20 * i as u32 + 3;
            let around = rng.word().to_be_bytes();
            let letters: [u8; 3] = [rng.word() as u8, 0x11 * (1 + rng.below(7) as u8), 0x88 + rng.below(8) as u8];
            let byte = |letter: char| match letter {
                'c' => letters[0],
                'x' => letters[0] ^ letters[1],
                _ => letters[0] ^ letters[2],
            };
            let puts = |row: &str| -> Vec<Command> {
                let put = |letter| match kind {
                    0 => Byte(byte(letter)),
                    1 => Four([around[0], around[1], byte(letter), around[3]]),
                    _ => Copies(3, byte(letter)),
                };
                row.chars().flat_map(|letter| [Move(at), put(letter)]).collect()
            };
            pairs.push([puts(first), puts(second)]);
        }
        // All on one memory, and a few on each.
        cases.push(case(rng, 512, &pairs));
        for some in pairs.chunks(4) {
            cases.push(case(rng, 512, some));
        }
    }
    // A long row of puts at one place.
    for last in [0x5A, 0x5B] {
        let many: Vec<Command> = (0..40).flat_map(|i| [Move(77), Byte(i)]).collect();
        let pair = [[many, vec![Move(77), Byte(0x5A)]].concat(), vec![Move(77), Byte(last)]];
        cases.extend(turned(rng, 512, &[pair]));
    }
    cases
}

/// Pairs that clash: by each pair of pieces, at each place, in each bit.
pub fn clashing() -> Vec<Case> {
    let mut rng = family_rng("both clashing");
    let rng = &mut rng;
    let mut cases = Vec::new();
    for first in 0..3 {
        for second in 0..3 {
            let pairs: Vec<Two> = (0..10).map(|shift| overlap(rng, [first, second], shift, true)).collect();
            cases.push(case(rng, 512, &pairs));
        }
    }
    // One address alone, between others that agree.
    for length in [512u32, 1_024, 65_536] {
        for at in [0, 1, 255, 256, 511, 512, length - 2, length - 1] {
            if at >= length || length > 1_024 && at == 1 {
                continue;
            }
            let byte = rng.word() as u8;
            let wrong = byte ^ (1 + rng.below(255) as u8);
            let [from, to] = [at.saturating_sub(3), (at + 4).min(length)];
            let run = vec![Move(from), Copies((to - from) as u16, byte)];
            let clash = [run.clone(), [run.clone(), vec![Move(at), Byte(wrong)]].concat()];
            let single = [vec![Move(at), Byte(byte)], vec![Move(at), Byte(wrong)]];
            let apart = [vec![Move(at), Byte(byte)], vec![Move(length - 1 - at), Byte(byte)]];
            cases.extend(turned(rng, length, &[clash, single, apart]));
        }
    }
    // Each bit, each half.
    let changes = [1, 2, 4, 8, 16, 32, 64, 128, 0x0F, 0xF0, 0xFF, 0x81, 0x18, 0x03, 0xC0];
    for some in changes.chunks(3) {
        let mut pairs = Vec::new();
        for change in some {
            let at = rng.below(500);
            let bytes = rng.word().to_be_bytes();
            let mut others = bytes;
            others[rng.below(4) as usize] ^= change;
            pairs.push([vec![Move(at), Four(bytes)], vec![Move(at), Four(others)]]);
        }
        cases.extend(turned(rng, 512, &pairs));
    }
    cases.extend(values(rng));
    // A clash at the first, the last or any byte of long runs.
    for at in [0, 1, 255, 256, 300, 510, 511] {
        let pair = [vec![Copies(512, 0xA1)], vec![Copies(512, 0xA1), Move(at), Byte(0xA0)]];
        cases.push(case(rng, 512, &[pair]));
    }
    let pair = [vec![Copies(65_535, 0xA2)], vec![Move(65_534), Byte(0xA3)]];
    cases.extend(turned(rng, 65_536, &[pair]));
    cases
}

/// 0 against no put, against 0 and against others; bytes that the memory holds already.
fn values(rng: &mut Rng) -> Vec<Case> {
    let mut cases = Vec::new();
    for round in 0..4 {
        let mut maker = desk(rng, 512);
        let at = 8 + rng.below(400);
        // A ramp has an odd step, so that of two neighbours one isn't 0.
        let at = if maker.memory[at as usize] == 0 { at + 1 } else { at };
        let old = maker.memory[at as usize];
        let new = !old;
        let put = |byte: u8| vec![Move(at), Byte(byte)];
        let elsewhere = vec![Move(at + 3), Four([0, 0, 0, 1])];
        // The first pairs are refused, the last one loads.
        let clashes = [[put(old), put(new)], [put(0), put(old)], [put(0), put(0xFF)], [put(0), put(1)]];
        let loads = [[put(0), elsewhere.clone()], [put(0), put(0)], [put(old), put(old)], [put(old), elsewhere]];
        for [first, second] in clashes.into_iter().chain([loads[round].clone()]) {
            for [first, second] in [[&first, &second], [&second, &first]] {
                let call = together(rng, 512, list(first), list(second));
                maker.call(call);
            }
        }
        cases.push(maker.finish());
    }
    cases
}

/// Random pairs, well formed and damaged.
pub fn mixed() -> Vec<Case> {
    let mut rng = family_rng("both mixed");
    let rng = &mut rng;
    let mut cases = Vec::new();
    for round in 0..44 {
        let length = if round % 12 == 11 { 512 * rng.below(4) + 1 + rng.below(511) } else { 512 * (1 + rng.below(4)) };
        let mut maker = desk(rng, length);
        for _ in 0..6 {
            let pair = any_pair(rng, length, false);
            maker.call(Call::LoadBoth(pair));
        }
        cases.push(maker.finish());
    }
    cases
}
