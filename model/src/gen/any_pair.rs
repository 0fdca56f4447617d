//! Random pairs of load lists: apart, agreeing, clashing, damaged; and random scratches.

use super::any_list::{any_list, damage, long_list, short_list};
use crate::asm::list;
use crate::joint::{table, Table};
use crate::load::place;
use crate::load::Command::{self, *};
use crate::pair::{Pair, Scratch};
use crate::rng::Rng;

/// What both lists are to put at each address.
#[derive(Clone, Copy)]
struct Plan {
    first: u8,
    add: u8,
}

impl Plan {
    fn any(rng: &mut Rng) -> Plan {
        let first = if rng.chance(20) { rng.pick(&[0, 0xFF]) } else { rng.word() as u8 };
        Plan { first, add: if rng.chance(45) { 0 } else { rng.word() as u8 } }
    }

    fn at(&self, address: u32) -> u8 {
        self.first.wrapping_add(self.add.wrapping_mul((address ^ address >> 8) as u8))
    }

    /// One byte everywhere, so that 04h can put it.
    fn even(&self) -> bool {
        self.add == 0
    }
}

/// Addresses from the first up to, but not including, the second.
type Area = (u32, u32);

/// A part of an area: at its start, at its end, near a hub, or anywhere.
fn part(rng: &mut Rng, (from, to): Area, hub: u32, most: u32) -> Area {
    let room = to - from;
    let size = match rng.below(10) {
        0..=2 => 1,
        3..=6 => 1 + rng.below(8),
        7 | 8 => 1 + rng.below(40),
        _ => 1 + rng.below(most),
    };
    let size = size.min(room);
    let at = match rng.below(10) {
        0 | 1 => from,
        2 | 3 => to - size,
        4 => from + rng.below(room - size + 1),
        _ => (hub + rng.below(12)).saturating_sub(6).clamp(from, to - size),
    };
    (at, at + size)
}

/// Puts anything into an area, at most as far as it goes.
fn scrawl(rng: &mut Rng, commands: &mut Vec<Command>, (from, to): Area) {
    let at = from + rng.below(to - from);
    let room = to - at;
    commands.push(Move(at));
    commands.push(match rng.below(3) {
        0 if room >= 4 => Four(rng.word().to_be_bytes()),
        1 => Copies((1 + rng.below(room)).min(0xFFFF) as u16, rng.word() as u8),
        _ => Byte(rng.word() as u8),
    });
}

/// Puts what is planned for an area.
fn fill(rng: &mut Rng, commands: &mut Vec<Command>, plan: Plan, (from, to): Area) {
    if from > 0 || !commands.is_empty() {
        commands.push(Move(from));
    }
    let mut at = from;
    while at < to {
        let room = to - at;
        let byte = |i| plan.at(at + i);
        let (piece, size) = if plan.even() && (room > 8 || rng.chance(40)) {
            let count = if rng.chance(80) { room } else { 1 + rng.below(room) }.min(0xFFFF);
            (Copies(count as u16, byte(0)), count)
        } else if room >= 4 && rng.chance(60) {
            (Four([byte(0), byte(1), byte(2), byte(3)]), 4)
        } else if rng.chance(15) {
            (Copies(1, byte(0)), 1)
        } else {
            (Byte(byte(0)), 1)
        };
        commands.push(piece);
        at += size;
    }
}

/// A list that ends with what is planned in some parts of an area, whatever it puts there before.
fn planned(rng: &mut Rng, plan: Plan, area: Area, hub: u32) -> Vec<Command> {
    let most = if plan.even() { area.1 - area.0 } else { 60 };
    let mut commands = Vec::new();
    for _ in 0..1 + rng.below(5) {
        let part = part(rng, area, hub, most.min(0xFFFF));
        while rng.chance(30) {
            scrawl(rng, &mut commands, part);
        }
        fill(rng, &mut commands, plan, part);
    }
    commands
}

/// Changes a byte: in one bit, in one half, or anyhow.
fn other_byte(rng: &mut Rng, byte: u8) -> u8 {
    byte ^ match rng.below(5) {
        0 => 1 << rng.below(8),
        1 => 1 + rng.below(15) as u8,
        2 => 16 * (1 + rng.below(15) as u8),
        3 if byte != 0 => byte,
        _ => 1 + rng.below(255) as u8,
    }
}

/// One of the addresses where both put a byte, often the first or the last of them.
fn shared(rng: &mut Rng, length: u32, lists: &[Vec<Command>; 2]) -> Option<u32> {
    let tables: [Table; 2] = [0, 1].map(|i| table(length as usize, &place(&lists[i])));
    let both: Vec<usize> = (0..length as usize).filter(|at| tables.iter().all(|table| table[*at].is_some())).collect();
    match (rng.below(4), both.as_slice()) {
        (_, []) => None,
        (0, [first, ..]) => Some(*first as u32),
        (1, [.., last]) => Some(*last as u32),
        _ => Some(rng.pick(&both) as u32),
    }
}

/// Two lists that follow one plan, apart or over each other; perhaps with a clash, or a mended one.
fn planned_pair(rng: &mut Rng, length: u32) -> [Vec<Command>; 2] {
    let plan = Plan::any(rng);
    let hub = rng.below(length);
    let mut lists = if rng.chance(25) && length > 1 {
        let cut = if hub == 0 { 1 } else { hub };
        [planned(rng, plan, (0, cut), hub), planned(rng, plan, (cut, length), hub)]
    } else {
        [planned(rng, plan, (0, length), hub), planned(rng, plan, (0, length), hub)]
    };
    if rng.chance(50) {
        lists.reverse();
    }
    if rng.chance(65) {
        if let Some(at) = shared(rng, length, &lists) {
            let side = rng.below(2) as usize;
            let wrong = other_byte(rng, plan.at(at));
            lists[side].extend([Move(at), if rng.chance(70) { Byte(wrong) } else { Copies(1, wrong) }]);
            if rng.chance(25) {
                lists[side].extend([Move(at), Byte(plan.at(at))]);
            }
        }
    }
    lists
}

/// Makes a list be refused: by 17, 18 or 19.
fn broken(rng: &mut Rng, length: u32, commands: &[Command], long: bool) -> Vec<u8> {
    let mut commands = commands.to_vec();
    match rng.below(10) {
        0..=2 => {
            let far = rng.pick(&[length, length + 1, 0x0100_0000, 0x8000_0000, u32::MAX]);
            let at = rng.below(commands.len() as u32 + 1) as usize;
            commands.splice(at..at, [Move(far), Byte(rng.word() as u8), Move(0)]);
            list(&commands)
        }
        3 if long => long_list(rng, length),
        4 => [list(&commands), vec![rng.below(6) as u8]].concat(),
        5 => {
            let mut bytes = list(&commands);
            bytes.pop();
            bytes
        }
        6 => Vec::new(),
        _ => {
            let mut bytes = list(&commands);
            damage(rng, &mut bytes);
            bytes
        }
    }
}

/// Two lists, of any length if `long`, else of few commands.
pub fn any_lists(rng: &mut Rng, length: u32, long: bool) -> [Vec<u8>; 2] {
    let any = |rng: &mut Rng| if long { any_list(rng, length) } else { short_list(rng, length) };
    let lists = planned_pair(rng, length.max(1));
    let whole = [list(&lists[0]), list(&lists[1])];
    match rng.below(100) {
        0..=5 => [any(rng), any(rng)],
        6..=8 => {
            // Both are refused, or nearly so.
            [broken(rng, length, &lists[0], long), broken(rng, length, &lists[1], long)]
        }
        9..=14 => [broken(rng, length, &lists[0], long), whole[1].clone()],
        15..=20 => [whole[0].clone(), broken(rng, length, &lists[1], long)],
        21..=23 => [list(&[]), whole[1].clone()],
        24..=26 => [whole[0].clone(), list(&[])],
        27 => [list(&[]), list(&[])],
        28..=31 => [whole[0].clone(), whole[0].clone()],
        32 => {
            let one = any(rng);
            [one.clone(), one]
        }
        33 if long => {
            // About as many pieces as are allowed, in one list or both.
            let one = long_list(rng, length);
            let other = if rng.chance(50) { whole[1].clone() } else { one.clone() };
            if rng.chance(50) {
                [one, other]
            } else {
                [other, one]
            }
        }
        _ => whole,
    }
}

/// Longer than any memory.
const LONGEST: u32 = 16_777_216 + 4_096;

/// A scratch as long as the memory, longer or shorter, of zeros or not.
pub fn any_scratch(rng: &mut Rng, length: u32) -> Scratch {
    let length = match rng.below(100) {
        0..=49 => length,
        50..=61 => length + rng.pick(&[1, 2, 7, 255, 256, 512]),
        62..=85 => length + 1 + rng.below(4_096),
        86..=90 => length.saturating_sub(1),
        91 | 92 => 0,
        93 => length / 8,
        94 => length.min(512),
        _ => rng.below(length + 1),
    };
    let (first, add) = match rng.below(8) {
        0 => (0, 0),
        1 => (0, rng.word() as u8),
        2 => (rng.word() as u8, 0),
        3 => (0xFF, 0),
        _ => (rng.word() as u8, rng.word() as u8),
    };
    Scratch { length: length.min(LONGEST), first, add }
}

/// Any pair.
pub fn any_pair(rng: &mut Rng, length: u32, long: bool) -> Pair {
    let [first, second] = any_lists(rng, length, long);
    Pair { first, second, scratch: any_scratch(rng, length) }
}
