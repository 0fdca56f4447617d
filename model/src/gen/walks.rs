//! Longer programs in both modes, and noise.

use super::layout::{layout, Kind, Layout};
use super::maker::Maker;
use super::traps::RULES;
use super::{family_rng, known_bytes, unknown_bytes};
use crate::asm;
use crate::case::{Call, Case};
use crate::code::decode;
use crate::map::DATA;
use crate::rng::Rng;
use crate::state::*;

pub fn any_kinds(rng: &mut Rng) -> Vec<Kind> {
    let count = 2 + rng.below(8);
    let mut kinds = Vec::new();
    for _ in 0..count {
        kinds.push(match rng.below(100) {
            0..=49 => Kind::Writable,
            50..=61 => Kind::ReadOnly,
            62..=70 => Kind::WritableData,
            71..=77 => Kind::ReadOnlyData,
            78..=88 => Kind::Absent,
            89..=94 => Kind::Forbidden,
            _ => Kind::Past,
        });
    }
    let good = rng.below(count) as usize;
    kinds[good] = Kind::Writable;
    kinds
}

/// A command for user mode, mostly one that can run.
fn user_command(desk: &mut Layout, bytes: &[u8]) -> Vec<u8> {
    match desk.maker.rng.below(40) {
        0 => return vec![desk.maker.rng.pick(&unknown_bytes())],
        1 => return vec![desk.maker.rng.pick(&[0, 5])],
        2 => {
            // A broken form rule somewhere.
            let byte = desk.maker.rng.pick(&bytes[5..]);
            let known = decode(byte).unwrap();
            if !known.operands.is_empty() {
                let place = desk.maker.rng.below(known.operands.len() as u32) as usize;
                let rule = desk.maker.rng.below(RULES);
                let (role, format) = known.operands[place];
                let mut code = desk.pick_command(byte, None);
                if let Some(fields) = desk.broken(rule, role, format) {
                    code[1 + 6 * place..7 + 6 * place].copy_from_slice(&fields.bytes());
                }
                return code;
            }
        }
        3 | 4 => {
            // A value or place that can't be used.
            let number = 8 + desk.maker.rng.below(4);
            let page = match number {
                8 => desk.kinds.len() as u32,
                _ => desk.maker.rng.below(desk.kinds.len() as u32),
            };
            let at = (page * FRAME_BYTES).wrapping_sub(desk.maker.rng.below(4));
            let byte = 0x10 + desk.maker.rng.below(3) as u8;
            let register = asm::register(desk.maker.rng.below(14) as u8);
            let place = desk.maker.point_at(at);
            let pair = if desk.maker.rng.chance(50) { [place, register] } else { [register, place] };
            return asm::command(byte, &pair);
        }
        5..=8 => {
            // Into a page without commands, or before one.
            if let Some(target) = desk.data_address() {
                return desk.any_leading(target);
            }
        }
        _ => {}
    }
    let byte = match desk.maker.rng.below(12) {
        0 => 3,
        1 => desk.maker.rng.pick(&[1, 2, 0x79, 0x7A]),
        _ => desk.maker.rng.pick(&bytes[5..]),
    };
    desk.pick_command(byte, None)
}

/// A command for kernel mode: work, or a way back to user mode, or a stop.
fn kernel_command(desk: &mut Layout, bytes: &[u8]) -> Vec<u8> {
    let block = desk.maker.state.control_block;
    let saved = desk.maker.word(block + 60);
    let argument = desk.maker.word(block + 68);
    match desk.maker.rng.below(20) {
        0..=5 => desk.maker.resume_here(),
        6..=8 => {
            // Go on elsewhere.
            let target = desk.code_target_of_user();
            let to = desk.maker.point_at(block + 60);
            asm::command(0x12, &[asm::immediate(target), to])
        }
        9 => asm::command(0x42, &[asm::immediate(1 + saved % 7 * 3), asm::absolute(block + 60)]),
        10..=12 => {
            // Give the page of the argument another entry.
            let page = argument / FRAME_BYTES;
            let page = if page < desk.kinds.len() as u32 + 2 { page } else { 0 };
            let frame = desk.first_frame + desk.maker.rng.below(desk.frames - desk.first_frame);
            let mut access = if desk.maker.rng.chance(80) { 0xC000_0000 } else { 0x8000_0000 };
            if desk.maker.rng.chance(15) {
                access |= DATA;
            }
            let to = desk.maker.point_at(desk.maker.state.map_base + 4 * page);
            asm::command(0x12, &[asm::immediate(access | frame), to])
        }
        13 => {
            let length = desk.kinds.len() as u32 + desk.maker.rng.below(3);
            asm::command(0x12, &[asm::immediate(length), asm::absolute(block + 76)])
        }
        14 if desk.maker.rng.chance(25) => vec![0],
        15 if desk.maker.rng.chance(30) => {
            let word = desk.maker.rng.word();
            asm::command(5, &[asm::absolute(word)])
        }
        16 => asm::command(0x14 + 2, &[asm::absolute(block + 64)]),
        _ => {
            let byte = desk.maker.rng.pick(&bytes[5..]);
            desk.pick_command(byte, None)
        }
    }
}

/// Lays a command where the desk is about to run one, and the entry it needs.
pub fn prepare(desk: &mut Layout, bytes: &[u8]) {
    if desk.maker.state.stopped() {
        return;
    }
    if desk.maker.free_here() {
        let code = if desk.maker.state.kernel() { kernel_command(desk, bytes) } else { user_command(desk, bytes) };
        desk.maker.code(&code);
    }
    desk.maker.decide_next();
}

pub fn walk(rng: &mut Rng, bytes: &[u8]) -> Case {
    let kinds = any_kinds(rng);
    let shared = rng.chance(70);
    let mut desk = layout(Rng::new(rng.next()), &kinds, shared);
    desk.maker.bad_entries = 5;
    let mut state = desk.maker.state;
    if desk.maker.rng.chance(20) {
        state.status |= KERNEL;
    }
    if desk.maker.rng.chance(25) {
        state.pending = 1 << (1 + desk.maker.rng.below(15));
    }
    desk.maker.begin(state);
    desk.registers();
    desk.aim();
    let target = 7 + desk.maker.rng.below(8) as usize;
    while desk.maker.calls() < target {
        match desk.maker.rng.below(16) {
            0 => {
                let level = 1 + desk.maker.rng.below(15);
                desk.maker.call(Call::Request(level));
            }
            1 => {
                let level = desk.maker.rng.pick(&[0, 16, 255, 0x8000_0003]);
                desk.maker.call(Call::Request(level));
            }
            2 | 3 => {
                let n = desk.maker.rng.below(6);
                for _ in 0..n {
                    prepare(&mut desk, bytes);
                    if desk.maker.state.stopped() {
                        break;
                    }
                    desk.maker.silent_step();
                }
                desk.maker.keep(Call::Run(n));
            }
            _ => {
                prepare(&mut desk, bytes);
                desk.maker.call(Call::Step);
            }
        }
        if desk.maker.state.stopped() && desk.maker.rng.chance(70) {
            desk.maker.call(Call::Step);
            break;
        }
    }
    desk.maker.finish()
}

pub fn walks() -> Vec<Case> {
    let mut rng = family_rng("walks");
    let bytes = known_bytes();
    (0..WALKS).map(|_| walk(&mut rng, &bytes)).collect()
}

const WALKS: u32 = 900;
const NOISE: u32 = 250;

/// Random bytes where code, map, blocks and data are.
pub fn noise() -> Vec<Case> {
    let mut rng = family_rng("noise");
    (0..NOISE).map(|round| noise_case(&mut rng, round)).collect()
}

pub fn noise_case(rng: &mut Rng, round: u32) -> Case {
    let frames = 1 + rng.below(6);
    let length = frames * 512;
    let mut maker = Maker::new(Rng::new(rng.next()), length as usize);
    for frame in 0..frames {
        maker.ramp(frame * 512, 512);
    }
    let mut state = State {
        registers: std::array::from_fn(|_| if rng.chance(60) { rng.below(length) } else { 0 }),
        status: rng.word() & (LEVEL | FLAGS),
        pending: if rng.chance(30) { rng.word() as u16 & 0xFFFE } else { 0 },
        map_base: 4 * rng.below(100),
        map_length: 1 + rng.below(8),
        system_block: 4 * rng.below(40),
        control_block: 4 * rng.below(100),
        mark: Mark::Running,
    };
    if rng.chance(35) {
        state.status |= KERNEL;
    }
    if rng.chance(80) {
        for page in 0..state.map_length {
            let data = if rng.chance(15) { DATA } else { 0 };
            let entry = rng.word() & 0xC000_0000 | 0x8000_0000 | data | rng.below(frames + 1);
            maker.lay_word(state.map_base + 4 * page, entry);
        }
    }
    maker.begin(state);
    // Bytes that look like commands half the time.
    let at = if round % 2 == 0 { state.registers[PC] } else { rng.below(length) };
    state.registers[PC] = at;
    maker.begin(state);
    let bytes = known_bytes();
    let mut code = Vec::new();
    for _ in 0..2 + rng.below(4) {
        let byte = rng.pick(&bytes);
        code.push(byte);
        for _ in 0..decode(byte).unwrap().operands.len() {
            let form = rng.below(10) as u8;
            let pair = if rng.chance(60) { 0 } else { rng.word() as u8 };
            let z = if rng.chance(70) { rng.below(length) } else { rng.word() };
            code.extend([form, pair]);
            code.extend(z.to_be_bytes());
        }
    }
    maker.code(&code);
    for _ in 0..3 + rng.below(5) {
        match rng.below(8) {
            0 => maker.call(Call::Run(rng.below(9))),
            1 => maker.call(Call::Request(rng.below(17))),
            _ => {
                if rng.chance(70) {
                    maker.decide_next();
                }
                maker.call(Call::Step)
            }
        };
        maker.kernel_next = rng.below(length);
    }
    maker.finish()
}
