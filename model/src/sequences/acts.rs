//! Single acts of random sequences: calls with any numbers, damage, and what
//! the caller does to state and memory in between.

use super::session::Session;
use super::*;
use crate::code::{decode, Format};
use crate::gen::any_points::{ahead, any_points, any_steps};
use crate::gen::float_values::{any_number, bytes_of};
use crate::gen::known_bytes;
use crate::gen::refusals::{any_level, spoil};
use crate::rng::Rng;

/// A run that nothing stops ends here.
pub const MOST: u64 = 400;
pub const LONGEST: u32 = 16_777_216;

/// A length that number 1 refuses, not far above the allowed ones.
pub fn bad_length(rng: &mut Rng) -> u32 {
    match rng.below(6) {
        0 => 0,
        1 => rng.below(512),
        2 => 512 * (1 + rng.below(6)) + 1,
        3 => 512 * (1 + rng.below(6)) - 1,
        _ => 512 * rng.below(6) + 1 + rng.below(511),
    }
}

pub fn count(rng: &mut Rng) -> u64 {
    match rng.below(8) {
        0 => 0,
        1 => 1,
        2 => u64::MAX,
        3 => 1 << 32 | u64::from(rng.below(3)),
        4 => u64::from(rng.below(200)),
        _ => u64::from(rng.below(12)),
    }
}

/// Damages a good state: fields that some number refuses, fields of any
/// content, single bytes, or all of it.
pub fn damage(rng: &mut Rng, good: &State, length: u32) -> StateBytes {
    let mut state = *good;
    let mut bytes = packed(&state);
    match rng.below(4) {
        0 if length >= 512 => {
            for _ in 0..1 + rng.below(2) {
                let number = rng.pick(&[2, 3, 4, 5, 7]);
                let variant = rng.below(6);
                spoil(rng, &mut state, number, variant, length);
            }
            return packed(&state);
        }
        1 => {
            for _ in 0..1 + rng.below(3) {
                let (at, size) = if rng.chance(10) { (88, 2) } else { (64 + 4 * rng.below(6) as usize, 4) };
                let word = rng.word();
                bytes[at..at + size].copy_from_slice(&word.to_be_bytes()[..size]);
            }
        }
        2 => {
            for _ in 0..1 + rng.below(6) {
                bytes[rng.below(STATE_BYTES as u32) as usize] = rng.word() as u8;
            }
        }
        _ => bytes = std::array::from_fn(|_| rng.word() as u8),
    }
    bytes
}

/// Any call, with any numbers.
pub fn any_call(session: &mut Session, rng: &mut Rng) {
    match rng.below(16) {
        0..=4 => session.call(Act::Step),
        5..=7 => {
            let n = count(rng);
            session.run(n, MOST);
        }
        8..=10 => session.call(Act::Request(any_level(rng))),
        11 => any_fresh(session, rng),
        _ => any_run_to(session, rng),
    }
}

/// A run to any breakpoints.
pub fn any_run_to(session: &mut Session, rng: &mut Rng) {
    let ahead = ahead(&session.state, &session.memory, 24);
    let points = any_points(rng, &ahead, true);
    let n = if rng.chance(25) { count(rng) } else { u64::from(any_steps(rng, &ahead, &points)) };
    session.run_to(n, MOST, points);
}

/// A block's address: mostly one that is allowed, often at a limit.
pub fn block(rng: &mut Rng, length: u32, size: u32) -> u32 {
    let last = length.saturating_sub(size);
    match rng.below(12) {
        0 => last & !3,
        1 => (last & !3).wrapping_add(4),
        2 => last,
        3 => rng.word(),
        4 => rng.below(last / 2 + 1),
        5 => 0u32.wrapping_sub(4 * (1 + rng.below(65))),
        _ => rng.below(last + 1) & !3,
    }
}

pub fn any_fresh(session: &mut Session, rng: &mut Rng) {
    let length = session.memory.len() as u32;
    let start = if rng.chance(85) { rng.below(length + 2) } else { rng.word() };
    let (system, control) = (block(rng, length, 256), block(rng, length, 80));
    session.call(Act::Fresh { system, control, start });
}

/// Bytes that look like commands.
pub fn code(rng: &mut Rng, bytes: &[u8], length: u32) -> Vec<u8> {
    let mut code = Vec::new();
    for _ in 0..1 + rng.below(8) {
        let byte = if rng.chance(95) { rng.pick(bytes) } else { rng.word() as u8 };
        code.push(byte);
        let Some(known) = decode(byte) else { continue };
        for (_, format) in known.operands {
            let mut form = if rng.chance(97) { rng.below(9) as u8 } else { rng.word() as u8 };
            if form == 1 && format == Format::D && rng.chance(80) {
                form = 0;
            }
            let pair = match form {
                0 | 1 => 0,
                2 | 3 | 5 | 7 | 8 => (rng.below(16) << 4) as u8,
                _ => rng.word() as u8,
            };
            let z = match form {
                1 if format.floating() => any_number(rng, Format::F) as u32,
                1 => rng.below(256),
                2 | 7 | 8 => 0,
                _ if rng.chance(85) => rng.below(length),
                _ => rng.word(),
            };
            code.extend([form, if rng.chance(3) { rng.word() as u8 } else { pair }]);
            code.extend(z.to_be_bytes());
        }
    }
    code
}

/// Lays bytes from an address on, as far as the memory goes.
pub fn lay_bytes(memory: &mut [u8], at: u32, bytes: &[u8]) {
    for (place, byte) in memory.iter_mut().skip(at as usize).zip(bytes) {
        *place = *byte;
    }
}

/// The caller writes some bytes, often commands where the desk is about to run.
pub fn scribble(session: &mut Session, rng: &mut Rng, known: &[u8]) {
    let length = session.memory.len() as u32;
    if length == 0 {
        return;
    }
    let mut memory = session.memory.clone();
    let (at, bytes) = if rng.chance(60) {
        (session.state.registers[PC], code(rng, known, length))
    } else if rng.chance(30) {
        let format = rng.pick(&[Format::F, Format::D]);
        let bytes = (0..1 + rng.below(6)).flat_map(|_| bytes_of(any_number(rng, format), format)).collect();
        (rng.below(length), bytes)
    } else {
        let bytes = (0..1 + rng.below(40)).map(|_| rng.word() as u8).collect();
        (rng.below(length), bytes)
    };
    lay_bytes(&mut memory, at, &bytes);
    session.put_memory(&memory);
}

/// The caller makes a stopped desk go on, or makes a fresh one.
pub fn go_on(session: &mut Session, rng: &mut Rng) {
    if rng.chance(20) {
        any_fresh(session, rng);
    } else {
        revive(session, rng);
    }
}

/// The caller makes a stopped desk go on: elsewhere, in another mode, or with
/// the same command again.
pub fn revive(session: &mut Session, rng: &mut Rng) {
    let length = session.memory.len() as u32;
    let choice = rng.below(5);
    let word = rng.word();
    let near = rng.below(14);
    let place = rng.below(length + 1);
    session.edit(|state| {
        state.mark = Mark::Running;
        match choice {
            0 => state.registers[PC] = place,
            1 => state.registers[PC] = state.registers[PC].wrapping_add(near),
            2 => state.status ^= KERNEL,
            3 => state.registers[near as usize] = word,
            _ => {}
        }
    });
}

/// Some calls with a damaged state or a wrong length, then back.
pub fn detour(session: &mut Session, rng: &mut Rng) {
    aside(session, rng, |session, rng| {
        for _ in 0..1 + rng.below(3) {
            any_call(session, rng);
        }
    });
}

/// What `calls` makes is made with a damaged state or a wrong length, then back.
pub fn aside(session: &mut Session, rng: &mut Rng, calls: impl FnOnce(&mut Session, &mut Rng)) {
    let good = session.state;
    let length = session.memory.len();
    if rng.chance(25) {
        let memory = session.memory.clone();
        let other = if rng.chance(70) { bad_length(rng) } else { 512 * (1 + rng.below(12)) };
        session.put_length(other);
        calls(session, rng);
        session.put_length(length as u32);
        session.put_memory(&memory);
    } else {
        session.put_state(damage(rng, &good, length as u32));
        calls(session, rng);
    }
    session.put_state(packed(&good));
}

/// Calls after a case of the generator.
pub fn tail(session: &mut Session, rng: &mut Rng) {
    let known = known_bytes();
    for _ in 0..rng.below(10) {
        if session.state.stopped() && rng.chance(60) {
            go_on(session, rng);
        }
        if rng.chance(30) {
            scribble(session, rng, &known);
        }
        if rng.chance(8) {
            detour(session, rng);
        }
        any_call(session, rng);
    }
}
