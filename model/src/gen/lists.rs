//! Load lists that load (request F-1), and random ones.

use super::any_list::short_list;
use super::family_rng;
use super::maker::Maker;
use super::refusals::good_state;
use crate::asm::list;
use crate::case::{Call, Case};
use crate::load::Command::{self, *};
use crate::rng::Rng;
use crate::state::*;

/// A desk whose memory is ramps, so that every byte that a load changes shows.
pub fn desk(rng: &mut Rng, length: u32) -> Maker {
    let mut maker = Maker::new(Rng::new(rng.next()), length as usize);
    for at in (0..length).step_by(0x8000) {
        maker.ramp(at, 0x8000.min(length - at) as u16);
    }
    let state = if rng.chance(50) { good_state(rng, length) } else { State::zero(rng.below(20)) };
    maker.begin(state);
    maker
}

/// A case of loads, one after another on one memory.
pub fn case(rng: &mut Rng, length: u32, lists: impl IntoIterator<Item = Vec<u8>>) -> Case {
    let mut maker = desk(rng, length);
    for list in lists {
        maker.call(Call::Load(list));
    }
    maker.finish()
}

/// A piece of each kind; 04h with a count of 5.
pub fn pieces(rng: &mut Rng) -> [Command; 3] {
    let word = rng.word();
    [Byte(word as u8), Four(rng.word().to_be_bytes()), Copies(5, (word >> 8) as u8)]
}

/// So many bytes, put one by one; no two that are near each other are alike.
pub fn row(count: usize) -> Vec<Command> {
    (0..count).map(|i| Byte((37 * i + 11 * (i / 256) + 0x41) as u8)).collect()
}

/// Lists that load: each command, after each other and over each other.
pub fn puts() -> Vec<Case> {
    let mut rng = family_rng("load puts");
    let rng = &mut rng;
    let mut cases = Vec::new();
    // Each command alone, and moved.
    cases.push(case(rng, 512, [list(&[])]));
    cases.push(case(rng, 512, [list(&[Move(300)])]));
    for i in 0..3 {
        let [first, second] = [pieces(rng)[i], pieces(rng)[i]];
        cases.push(case(rng, 512, [list(&[first])]));
        cases.push(case(rng, 512, [list(&[Move(0x123), second])]));
        cases.push(case(rng, 1024, [list(&[Move(0x1FE), first, Move(0x201), second])]));
    }
    // Each piece right after each command; the last byte shows where the place is.
    for i in 0..3 {
        for j in 0..4 {
            let [first, second] = [pieces(rng)[i], pieces(rng)[i]];
            let before = if j == 3 { Move(0x0102) } else { pieces(rng)[j] };
            let lists = [list(&[before, first, Byte(rng.word() as u8)]), list(&[Move(0x80), before, second, Byte(0)])];
            cases.push(case(rng, 512, lists));
        }
    }
    // Each piece over each, from four bytes before it to five past it: a later put wins.
    for i in 0..3 {
        for j in 0..3 {
            let mut lists = Vec::new();
            for shift in 0..10 {
                let [under, over] = [pieces(rng)[i], pieces(rng)[j]];
                let at = 8 + 40 * shift;
                lists.push(list(&[Move(at), under, Move(at + shift - 4), over]));
            }
            cases.push(case(rng, 512, lists));
        }
    }
    // One place again and again in a list.
    for at in [0, 5, 0x1FC] {
        let mut commands = Vec::new();
        for _ in 0..6 {
            commands.extend([Move(at), pieces(rng)[rng.below(2) as usize]]);
        }
        cases.push(case(rng, 512, [list(&commands)]));
    }
    cases.extend(counts(rng));
    cases.extend(addresses(rng));
    cases.extend(again(rng));
    cases
}

/// Counts of 04h, of 0 too, and the place after them.
fn counts(rng: &mut Rng) -> Vec<Case> {
    let mut cases = Vec::new();
    for count in [0, 1, 2, 3, 128, 255, 256, 257, 510, 511, 512] {
        let fill = rng.word() as u8;
        let list = list(&[Move(1), Copies(count, fill), Byte(!fill)]);
        cases.push(case(rng, 1024, [list]));
    }
    for count in [0x0100, 0x0001, 0x0102, 0x0201, 0x1000, 0x0F0F] {
        let fill = rng.word() as u8;
        let list = list(&[Copies(count, fill), Four([1, 2, 3, 4]), Copies(count >> 8, 7)]);
        cases.push(case(rng, 8192, [list]));
    }
    // None, between puts and alone; many that put none.
    cases.push(case(rng, 512, [list(&[Copies(0, 0xEE)])]));
    cases.push(case(rng, 512, [list(&[Byte(1), Copies(0, 0xEE), Byte(2), Copies(0, 0xDD), Four([3, 4, 5, 6])])]));
    cases.push(case(rng, 512, [list(&[Copies(0, 1); 20]), list(&[[Copies(0, 1), Byte(9)]; 20].concat())]));
    // The greatest counts; most of the bytes are put back, which keeps the case small.
    cases.push(case(rng, 65_536, [list(&[Copies(65_535, 0xA5), Byte(0x5A)])]));
    for count in [32_767, 32_768, 40_000, 65_534] {
        let mut maker = Maker::new(Rng::new(rng.next()), 65_536);
        let back = [Move(9), Copies(count - 18, 0), Byte(0)];
        maker.call(Call::Load(list(&[Copies(count, 0xC3), Byte(0x3C)])));
        maker.call(Call::Load(list(&back)));
        cases.push(maker.finish());
    }
    let mut maker = Maker::new(Rng::new(rng.next()), 65_536);
    maker.call(Call::Load(list(&[Move(1), Copies(65_535, 0x77)])));
    maker.call(Call::Load(list(&[Move(2), Copies(65_533, 0)])));
    cases.push(maker.finish());
    cases
}

/// Addresses whose bytes can't be exchanged.
fn addresses(rng: &mut Rng) -> Vec<Case> {
    let mut cases = Vec::new();
    for length in [1024, 65_536] {
        let mut commands = Vec::new();
        for at in [0x0001, 0x0100, 0x0102, 0x0201, 0x00FF, 0x01FD, 0x03FC, 0x1234, 0x3412, 0x8000, 0xFF00, 0xFFFB] {
            if at + 4 < length {
                commands.extend([Move(at), Four(rng.word().to_be_bytes()), Byte(rng.word() as u8)]);
            }
        }
        cases.push(case(rng, length, [list(&commands)]));
        commands.reverse();
        cases.push(case(rng, length, [list(&commands)]));
    }
    // Moves one after another, back and forth, and one that nothing follows.
    let moves =
        [Move(7), Move(400), Move(12), Byte(1), Move(3), Byte(2), Move(500), Byte(3), Move(3), Move(4), Byte(4)];
    cases.push(case(rng, 512, [list(&moves)]));
    cases.push(case(rng, 512, [list(&[moves.to_vec(), vec![Move(2)]].concat())]));
    // A word at each place around a frame's end.
    for at in 505..=512 {
        cases.push(case(rng, 1024, [list(&[Move(at), Four([0xF1, 0xF2, 0xF3, 0xF4])])]));
    }
    cases
}

/// Loads one after another: the place starts at 0 again, later loads win.
fn again(rng: &mut Rng) -> Vec<Case> {
    let mut cases = Vec::new();
    for i in 0..3 {
        let [first, second] = [pieces(rng)[i], pieces(rng)[i]];
        let lists = [list(&[Move(200), first]), list(&[second]), list(&[Move(198), second, first]), list(&[])];
        cases.push(case(rng, 512, lists));
    }
    for length in [512, 2048] {
        let mut lists = Vec::new();
        for round in 0..12 {
            lists.push(list(&[Move(30 * round), Copies(40, round as u8), Byte(0xFF), Byte(0xEE)]));
            lists.push(list(&row(1 + round as usize)));
        }
        cases.push(case(rng, length, lists));
    }
    cases
}

/// Random lists, well formed and damaged.
pub fn mixed() -> Vec<Case> {
    let mut rng = family_rng("load mixed");
    let rng = &mut rng;
    let mut cases = Vec::new();
    for round in 0..84 {
        let length = if round % 12 == 11 { 512 * rng.below(4) + 1 + rng.below(511) } else { 512 * (1 + rng.below(4)) };
        let lists: Vec<_> = (0..6).map(|_| short_list(rng, length)).collect();
        cases.push(case(rng, length, lists));
    }
    cases
}
