//! Random commands on floating numbers: sequences of steps and runs of straight code, with other
//! numbers in memory and registers each time.

use super::acts::{any_call, revive};
use super::lists::numbers;
use super::session::Session;
use super::*;
use crate::asm;
use crate::code::{decode, Format, Role};
use crate::gen::float_bytes;
use crate::gen::float_values::{any_number, bytes_of};
use crate::gen::layout::{layout, Kind};
use crate::map::{get, lookup, put, word, Real, Reason, Virtual};
use crate::operand::Fields;
use crate::rng::Rng;

/// Pieces of code that a sequence has, and commands in each.
const PIECES: u32 = 3;
const COMMANDS: u32 = 24;

/// Commands on floating numbers alone: sequence number `index` of a seed.
pub fn sequence(seed: u64, index: u32) -> Sequence {
    commands(&mut numbers(seed, "floats", index))
}

/// Where things are in the pages: code first, numbers behind it, then results.
const NUMBERS: u32 = 1024;
const RESULTS: u32 = 2048;
const PAGES: usize = 6;

/// An operand, mostly one that keeps the form rules.
fn operand(rng: &mut Rng, base: u32, role: Role, format: Format) -> Fields {
    let written = matches!(role, Role::Destination | Role::Both);
    let at = base + if written { RESULTS } else { NUMBERS } + rng.below(1000);
    match rng.below(100) {
        0..=29 => asm::register(rng.below(if format == Format::D { 14 } else { 15 }) as u8),
        30..=31 => asm::register(rng.below(16) as u8),
        32..=51 if !written && format == Format::F => asm::immediate(any_number(rng, format) as u32),
        52 => asm::immediate(rng.word()),
        // R14 leads through the numbers.
        53..=60 => asm::raised(14),
        61..=64 => asm::lowered(14),
        65..=70 => asm::relative(rng.below(500), 14),
        _ => asm::absolute(at),
    }
}

/// Writes numbers of both kinds over a part of the memory.
fn fill(rng: &mut Rng, memory: &mut [u8]) {
    let mut at = 0;
    while at + 8 <= memory.len() {
        let format = rng.pick(&[Format::F, Format::F, Format::D]);
        let bytes = bytes_of(any_number(rng, format), format);
        memory[at..at + bytes.len()].copy_from_slice(&bytes);
        at += bytes.len() + if rng.chance(5) { 1 } else { 0 };
    }
}

/// Pieces of straight code, each laid, given numbers and made step by step or in one run.
pub fn commands(rng: &mut Rng) -> Sequence {
    let mut kinds = vec![Kind::Writable; PAGES];
    if rng.chance(20) {
        kinds[3 + rng.below(3) as usize] = rng.pick(&[Kind::ReadOnly, Kind::Absent, Kind::WritableData, Kind::Past]);
    }
    let mut desk = layout(Rng::new(rng.next()), &kinds, false);
    if rng.chance(80) {
        // Alarms enter the kernel; else they are stop 16.
        for cause in 0..32 {
            desk.maker.lay_word(desk.maker.state.system_block + 8 * cause, 1024);
            desk.maker.lay_word(desk.maker.state.system_block + 8 * cause + 4, KERNEL | cause);
        }
    }
    let kernel = rng.chance(50);
    let real = desk.first_frame * FRAME_BYTES;
    let base = if kernel { real } else { 0 };
    let mut start = desk.maker.state;
    if kernel {
        start.status |= KERNEL;
    }
    let mut session = Session::new("floats", desk.maker.memory.clone(), packed(&start));
    let bytes = float_bytes();
    for _ in 0..PIECES {
        let mut code = Vec::new();
        for _ in 0..COMMANDS {
            let byte = rng.pick(&bytes);
            let operands = decode(byte).unwrap().operands;
            let fields: Vec<Fields> =
                operands.iter().map(|(role, format)| operand(rng, base, *role, *format)).collect();
            code.extend(asm::command(byte, &fields));
        }
        // In user mode the pages' frames follow each other from another one on.
        let mut memory = session.memory.clone();
        fill(rng, &mut memory[real as usize..]);
        for (i, byte) in code.iter().enumerate() {
            let at = base + i as u32;
            if let Ok(place) = lookup(&start, &memory, Virtual(at), Reason::Read) {
                put(&mut memory, place, *byte);
            }
        }
        session.put_memory(&memory);
        let words: Vec<u32> = (0..14)
            .map(|_| match rng.below(3) {
                0 => any_number(rng, Format::F) as u32,
                1 => (any_number(rng, Format::D) >> 32) as u32,
                _ => any_number(rng, Format::D) as u32,
            })
            .collect();
        let flags = rng.word() & FLAGS;
        session.edit(|state| {
            *state = State { pending: 0, ..start };
            state.registers[..14].copy_from_slice(&words);
            state.registers[SP] = base + NUMBERS + words[0] % 400;
            state.registers[PC] = base;
            state.status = state.status & !FLAGS | flags;
        });
        if rng.chance(20) {
            session.run(u64::from(COMMANDS), u64::from(COMMANDS));
        } else {
            for _ in 0..COMMANDS {
                session.call(Act::Step);
                if session.state.kernel() != kernel || session.state.stopped() {
                    // Behind the command that alarmed.
                    let own = if session.state.stopped() { session.state.registers[PC] } else { saved_r15(&session) };
                    let after = own.wrapping_add(length_at(&session, &start, own));
                    session.edit(|state| {
                        *state = State { registers: state.registers, ..start };
                        state.registers[PC] = after;
                    });
                }
            }
        }
    }
    if rng.chance(10) {
        revive(&mut session, rng);
        any_call(&mut session, rng);
    }
    session.finish()
}

/// The R15 that an entry saved.
fn saved_r15(session: &Session) -> u32 {
    word(&session.memory, Real(session.state.control_block + 60))
}

/// The length of the command at an address.
fn length_at(session: &Session, start: &State, own: u32) -> u32 {
    let real = lookup(start, &session.memory, Virtual(own), Reason::Read);
    let byte = real.map_or(0, |real| get(&session.memory, real));
    decode(byte).map_or(1, |known| 1 + 6 * known.operands.len() as u32)
}
