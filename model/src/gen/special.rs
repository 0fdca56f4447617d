//! Tried values, near misses and rare situations, built one by one.

use super::family_rng;
use super::grid::good_desk;
use super::layout::value;
use super::maker::Maker;
use super::places;
use super::traps::trap_desk;
use crate::asm::{self, command};
use crate::case::{Call, Case};
use crate::code::decode;
use crate::operand::Fields;
use crate::rng::Rng;
use crate::state::*;

/// Straight kernel code from 512 on a fresh desk, then HALT.
pub fn fresh_code(rng: &mut Rng, code: &[u8], steps: u32) -> Case {
    let length = (512 + code.len() + 1).div_ceil(512).max(2) * 512;
    let mut maker = Maker::new(Rng::new(rng.next()), length);
    maker.lay(512, code);
    maker.call(Call::Fresh { system: 0, control: 256, start: 512 });
    for _ in 0..steps {
        maker.call(Call::Step);
    }
    maker.call(Call::Run(5));
    maker.finish()
}

fn tried(rng: &mut Rng, cases: &mut Vec<Case>) {
    use asm::{absolute, immediate, register};
    let w = |value, x| command(0x12, &[immediate(value), register(x)]);
    let codes: Vec<Vec<u8>> = vec![
        command(0x12, &[immediate(0x01020304), absolute(800)]),
        [w(0xFFFF_FFFF, 0), command(0x10, &[immediate(2), register(0)])].concat(),
        [w(0x7F, 0), command(0x40, &[immediate(1), register(0)])].concat(),
        command(0x48, &[immediate(1), register(0)]),
        command(0x66, &[immediate(2), immediate(3)]),
        [w(0x80, 0), command(0x58, &[immediate(0xFF), register(0)])].concat(),
        [w(0xFFFF_FFF9, 0), command(0x5A, &[immediate(2), register(0)])].concat(),
        command(0x21, &[immediate(0x80), register(0)]),
        command(0x61, &[immediate(33), immediate(0x8000_0001), register(0)]),
        command(0x60, &[immediate(-31i32 as u32), immediate(0x8000_0000), register(0)]),
        [w(1000, 14), vec![1, 2]].concat(),
        command(0x10, &[immediate(2), register(0)]),
    ];
    for code in codes {
        cases.push(fresh_code(rng, &code, 2));
    }
    // Loops: a run that ends by its count, and one that ends by a stop.
    let endless = command(0x70, &[absolute(512)]);
    cases.push(fresh_code(rng, &endless, 1));
    let count = command(0x4A, &[immediate(1), register(1)]);
    let back = command(0x72, &[absolute(512 + 13)]);
    for n in [0, 5, 39, 40, 41, 42, 1000, u32::MAX] {
        let mut maker = Maker::new(Rng::new(rng.next()), 1024);
        maker.lay(512, &[w(20, 1), count.clone(), back.clone()].concat());
        maker.call(Call::Fresh { system: 0, control: 256, start: 512 });
        maker.call(Call::Run(n));
        maker.call(Call::Run(2));
        cases.push(maker.finish());
    }
}

/// Every jump with every combination of flags.
fn jumps(rng: &mut Rng, cases: &mut Vec<Case>) {
    for flags in 0..16 {
        for kernel in [false, true] {
            let mut left: Vec<u8> = (0x70..=0x79).rev().collect();
            while !left.is_empty() {
                let mut desk = good_desk(rng, kernel);
                let mut state = desk.maker.state;
                state.status = state.status & !FLAGS | flags;
                desk.maker.begin(state);
                // Where there is no room, or an alarm comes, another desk goes on.
                let mut rest = left.clone();
                while let Some(byte) = rest.pop() {
                    if !desk.maker.free_here() {
                        rest.push(byte);
                        break;
                    }
                    let code = desk.pick_command(byte, None);
                    desk.maker.code(&code);
                    if desk.maker.step().event != Event::Plain {
                        rest.push(byte);
                        break;
                    }
                }
                if let Some(case) = desk.maker.finish_true() {
                    cases.push(case);
                    left = rest;
                }
            }
        }
    }
}

/// PUSHR, POPR, CALL and RET around page ends and around 0.
fn stacks(rng: &mut Rng, cases: &mut Vec<Case>) {
    for round in 0..108 {
        let kernel = round % 5 == 4;
        let mut desk = if kernel { good_desk(rng, true) } else { trap_desk(rng) };
        let mut state = desk.maker.state;
        let byte = [0x01, 0x02, 0x79, 0x7A][round % 4];
        let pages = desk.kinds.len() as u32 + 1;
        let page = desk.maker.rng.below(pages);
        let size = if byte < 3 { 60 } else { 4 };
        let around = desk.maker.rng.below(2 * size + 1);
        state.registers[SP] = match round % 9 {
            8 => desk.maker.rng.below(70),
            7 => desk.maker.rng.below(70).wrapping_sub(70),
            _ if kernel => desk.maker.length() - size + around,
            _ => (page * FRAME_BYTES).wrapping_sub(size).wrapping_add(around),
        };
        for i in 0..14 {
            state.registers[i] = value(&mut desk.maker.rng, 4);
        }
        desk.maker.begin(state);
        let code = desk.pick_command(byte, None);
        desk.maker.code(&code);
        desk.maker.step();
        cases.push(desk.maker.finish());
    }
}

/// Commands that keep flags, with every combination of flags.
fn kept_flags(rng: &mut Rng, cases: &mut Vec<Case>) {
    for flags in 0..16 {
        let kernel = rng.chance(50);
        let mut desk = good_desk(rng, kernel);
        let mut state = desk.maker.state;
        state.status = state.status & !FLAGS | flags;
        desk.maker.begin(state);
        // PUSHR, POPR, CALL of the RET at the end, then a system call or HALT.
        let call = command(0x79, &[asm::absolute(state.registers[PC] + 16)]);
        let end = if kernel { vec![0; 7] } else { command(3, &[asm::register(14)]) };
        desk.maker.code(&[vec![1, 2], call, end, vec![0x7A]].concat());
        for _ in 0..5 {
            desk.maker.step();
        }
        cases.push(desk.maker.finish());
    }
}

/// CALL and other commands whose operands step SP.
fn stepped_stack(rng: &mut Rng, cases: &mut Vec<Case>) {
    for round in 0..24 {
        let mut desk = good_desk(rng, round % 2 == 0);
        let operands: [Fields; 4] = [asm::raised(14), asm::lowered(14), asm::relative(8, 14), asm::indirect(0, 14)];
        let code = command(0x79, &[operands[round / 2 % 4]]);
        if round / 2 % 4 == 3 {
            let target = desk.code_target();
            let sp = desk.maker.state.registers[SP];
            desk.lay_at(sp, &target.to_be_bytes());
        }
        desk.maker.code(&code);
        desk.maker.step();
        if desk.maker.free_here() {
            desk.maker.code(&[0x7A]);
            desk.maker.step();
        }
        cases.push(desk.maker.finish());
    }
}

/// Results in R15, with code that crosses a multiple of 256 or 65,536.
fn r15_results(rng: &mut Rng, cases: &mut Vec<Case>) {
    for round in 0..60u32 {
        let kernel = round % 2 == 0;
        let mut desk = good_desk(rng, kernel);
        let byte = desk.maker.rng.pick(&[0x10, 0x11, 0x12, 0x14, 0x15, 0x40, 0x41, 0x42, 0x48, 0x2C, 0x3D, 0x21, 0x20]);
        let known = decode(byte).unwrap();
        let length = 1 + 6 * known.operands.len() as u32;
        let mut state = desk.maker.state;
        if !kernel && round % 3 == 0 {
            // A long map whose pages 127 and 128 are good.
            let base = desk.first_frame * FRAME_BYTES;
            for page in [127, 128] {
                let entry = 0xC000_0000 | (desk.frames - 1);
                desk.maker.lay_word(base + 4 * page, entry);
            }
            state.map_base = base;
            state.map_length = 129;
            state.registers[PC] = 65_536 - 1 - desk.maker.rng.below(length);
        } else {
            let near = 256 * (1 + desk.maker.rng.below(3)) - 1 - desk.maker.rng.below(length);
            state.registers[PC] = near + if kernel { desk.first_frame * FRAME_BYTES } else { 0 };
        }
        desk.maker.begin(state);
        let mut operands = Vec::new();
        let mut seen = state.registers;
        for (i, (role, format)) in known.operands.iter().enumerate() {
            seen[PC] = state.registers[PC] + 1 + 6 * (i as u32 + 1);
            operands.push(if i + 1 == known.operands.len() {
                asm::register(15)
            } else {
                let form = if *role == crate::code::Role::Value { 1 } else { 3 };
                desk.operand(&mut seen, known.op, *role, *format, form)
            });
        }
        desk.maker.code(&command(byte, &operands));
        desk.maker.step();
        cases.push(desk.maker.finish());
    }
}

pub fn special() -> Vec<Case> {
    let mut rng = family_rng("special");
    let mut cases = Vec::new();
    tried(&mut rng, &mut cases);
    jumps(&mut rng, &mut cases);
    stacks(&mut rng, &mut cases);
    kept_flags(&mut rng, &mut cases);
    stepped_stack(&mut rng, &mut cases);
    r15_results(&mut rng, &mut cases);
    places::own_map(&mut rng, &mut cases);
    places::overlaps(&mut rng, &mut cases);
    places::self_changing(&mut rng, &mut cases);
    places::wraps(&mut rng, &mut cases);
    places::crossings(&mut rng, &mut cases);
    places::large(&mut rng, &mut cases);
    cases
}
