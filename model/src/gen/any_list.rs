//! Random load lists, well formed and damaged.

use crate::asm::{list, list_command};
use crate::load::Command;
use crate::rng::Rng;

/// A place: mostly inside memory or near its end, sometimes near 2^32 or near a power of 2.
fn any_place(rng: &mut Rng, length: u32) -> u32 {
    match rng.below(24) {
        0..=11 => rng.below(length.max(1)),
        12..=16 => (length + 3).saturating_sub(rng.below(8)),
        17 => length,
        18 | 19 => 0u32.wrapping_sub(1 + rng.below(600)),
        20 => (1 << (9 + rng.below(23))) - 1 + rng.below(3),
        21 => rng.word(),
        _ => rng.below(12),
    }
}

fn any_count(rng: &mut Rng, length: u32) -> u16 {
    match rng.below(16) {
        0 | 1 => 0,
        2 => 1,
        3 => rng.pick(&[255, 256, 257, 511, 512, 513, 65_535]),
        4 => (length + 1).wrapping_sub(rng.below(3)) as u16,
        5 => rng.below(length + 1) as u16,
        6 => rng.word() as u16,
        _ => rng.below(24) as u16,
    }
}

fn any_command(rng: &mut Rng, length: u32) -> Command {
    match rng.below(12) {
        0..=2 => Command::Move(any_place(rng, length)),
        3..=6 => Command::Byte(rng.word() as u8),
        7 | 8 => Command::Four(rng.word().to_be_bytes()),
        _ => Command::Copies(any_count(rng, length), rng.word() as u8),
    }
}

/// A command of a list with thousands of pieces.
fn small_command(rng: &mut Rng, kind: u32) -> Command {
    match kind {
        0 => Command::Byte(rng.word() as u8),
        1 => Command::Copies(rng.below(2) as u16, rng.word() as u8),
        2 => Command::Four(rng.word().to_be_bytes()),
        _ => match rng.below(5) {
            0 => Command::Move(rng.below(400)),
            1 => Command::Copies(rng.below(4) as u16, rng.word() as u8),
            other => small_command(rng, other - 2),
        },
    }
}

/// Commands one after another. A put that would leave memory gets a move before it, if `tame`.
fn row(rng: &mut Rng, length: u32, tame: bool, count: u32, next: impl Fn(&mut Rng) -> Command) -> Vec<Command> {
    let length = u64::from(length);
    let mut commands = Vec::new();
    let mut place = 0;
    for _ in 0..count {
        let command = next(rng);
        let size = command.bytes().len() as u64;
        if tame && size > length {
            continue;
        }
        if tame && size > 0 && place + size > length {
            place = u64::from(rng.below((length - size) as u32 + 1));
            commands.push(Command::Move(place as u32));
        }
        place = match command {
            Command::Move(address) => u64::from(address),
            _ => place + size,
        };
        commands.push(command);
    }
    commands
}

/// Commands of every kind with operands of any content, and perhaps no end.
fn scrawl(rng: &mut Rng, length: u32) -> Vec<u8> {
    let mut bytes = Vec::new();
    for _ in 0..rng.below(9) {
        match rng.below(8) {
            0 => bytes.push(rng.word() as u8),
            1 => bytes.push(rng.below(8) as u8),
            2 => bytes.extend(rng.word().to_be_bytes()),
            _ => bytes.extend(list_command(&any_command(rng, length))),
        }
    }
    if rng.chance(70) {
        bytes.push(0);
    }
    bytes
}

/// Flips, cuts, inserts, removes, doubles or repeats something.
pub fn damage(rng: &mut Rng, bytes: &mut Vec<u8>) {
    let size = bytes.len() as u32;
    let at = rng.below(size + 1) as usize;
    let byte = if rng.chance(60) { rng.below(7) as u8 } else { rng.word() as u8 };
    match rng.below(10) {
        0 if at < bytes.len() => bytes[at] ^= 1 << rng.below(8),
        1 if at < bytes.len() => bytes[at] = byte,
        2 | 3 => bytes.truncate(at),
        4 => bytes.insert(at, byte),
        5 if at < bytes.len() => drop(bytes.remove(at)),
        6 => {
            let end = (at + 1 + rng.below(6) as usize).min(bytes.len());
            let part = bytes[at.min(end)..end].to_vec();
            bytes.splice(at..at, part);
        }
        7 => bytes.extend(bytes.clone()),
        8 => bytes.extend(vec![byte; 1 + rng.below(5) as usize]),
        _ => drop(bytes.pop()),
    }
}

/// A list of few commands.
pub fn short_list(rng: &mut Rng, length: u32) -> Vec<u8> {
    if rng.chance(6) {
        return scrawl(rng, length);
    }
    let tame = rng.chance(60);
    let count = match rng.below(12) {
        0 => rng.below(2),
        1 => rng.below(40),
        _ => 1 + rng.below(8),
    };
    let mut bytes = list(&row(rng, length, tame, count, |rng| any_command(rng, length)));
    if rng.chance(30) {
        for _ in 0..1 + rng.below(2) {
            damage(rng, &mut bytes);
        }
    }
    bytes
}

/// A list with about as many pieces as are allowed.
pub fn long_list(rng: &mut Rng, length: u32) -> Vec<u8> {
    let kind = rng.pick(&[0, 0, 0, 1, 2, 3]);
    let tame = rng.chance(80);
    let mut commands = row(rng, length, tame, 4_200, |rng| small_command(rng, kind));
    let most = rng.pick(&[4_095, 4_096, 4_096, 4_097, 4_097, 4_098, 4_150]);
    let mut pieces = 0;
    commands.retain(|command| {
        pieces += u32::from(command.is_piece());
        pieces <= most
    });
    let mut bytes = list(&commands);
    if rng.chance(15) {
        damage(rng, &mut bytes);
    }
    bytes
}

/// Any list.
pub fn any_list(rng: &mut Rng, length: u32) -> Vec<u8> {
    if rng.chance(1) {
        long_list(rng, length)
    } else {
        short_list(rng, length)
    }
}
