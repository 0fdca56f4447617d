//! Special cases about memory: the desk's own map and blocks, wrapping addresses, page ends, long memories.

use super::grid::good_desk;
use super::layout::Layout;
use super::maker::Maker;
use super::traps::trap_desk;
use crate::asm::{self, command};
use crate::case::{Call, Case};
use crate::map::DATA;
use crate::rng::Rng;
use crate::state::*;

/// A desk whose user program can write its own map, or the blocks.
pub fn own_map(rng: &mut Rng, cases: &mut Vec<Case>) {
    for round in 0..48u32 {
        let mut desk = good_desk(rng, false);
        // The last page but one names frame 0 or 1, where map and blocks lie.
        let page = desk.kinds.len() as u32 - 2;
        let base = desk.maker.state.map_base;
        let which = match round % 3 {
            0 | 1 => base + 4 * if round % 2 == 0 { page } else { desk.maker.rng.below(page + 2) },
            _ => desk.maker.state.system_block + 8 * (12 + desk.maker.rng.below(3)),
        };
        desk.maker.lay_word(base + 4 * page, 0xC000_0000 | which / FRAME_BYTES);
        let back = desk.maker.rng.below(4);
        let at = (page * FRAME_BYTES + which % FRAME_BYTES).wrapping_sub(back);
        let word = match desk.maker.rng.below(5) {
            0 => 0,
            1 => 0x8000_0000 | desk.first_frame,
            2 => 0x00C0_0000,
            3 => 0xC000_0000 | DATA | desk.first_frame,
            _ => desk.maker.rng.word(),
        };
        let size = desk.maker.rng.below(3) as u8;
        let value = word & [0xFF, 0xFFFF, 0xFFFF_FFFF][size as usize];
        let code = if round % 5 == 4 {
            let mut state = desk.maker.state;
            state.registers[SP] = at.wrapping_add(60);
            desk.maker.begin(state);
            vec![1]
        } else {
            command(0x10 + size, &[asm::immediate(value), asm::absolute(at)])
        };
        desk.maker.code(&code);
        desk.maker.step();
        for byte in [0x12, 0x03, 0xFF] {
            if !desk.maker.state.stopped() && desk.maker.free_here() {
                let code = desk.pick_command(byte, None);
                desk.maker.code(&code);
                desk.maker.step();
            }
        }
        cases.push(desk.maker.finish());
    }
}

/// System and control block that overlap each other or the running code.
pub fn overlaps(rng: &mut Rng, cases: &mut Vec<Case>) {
    for round in 0..35u32 {
        let mut desk = if round % 7 == 6 { trap_desk(rng) } else { good_desk(rng, false) };
        let mut state = desk.maker.state;
        let cause = [1, 12, 14, 15, 20, 31, 2][round as usize % 7];
        let entry = state.system_block + 8 * cause;
        // The entry's bytes lie somewhere in the 80 bytes.
        let shift = 4 * desk.maker.rng.below(19);
        state.control_block = entry.saturating_sub(shift) / 4 * 4;
        if cause > 16 {
            state.pending = 1 << (cause - 16);
            state.status &= FLAGS;
        }
        if cause == 2 {
            state.registers[PC] = desk.failing(1, 21);
        }
        desk.maker.begin(state);
        let code = match cause {
            1 => command(3, &[asm::register(9)]),
            12 => vec![0xEE],
            14 => command(0x10, &[asm::immediate(7), asm::immediate(7)]),
            _ => command(0x58, &[asm::immediate(0), asm::register(7)]),
        };
        desk.maker.code(&code);
        desk.maker.step();
        desk.maker.call(Call::Step);
        cases.push(desk.maker.finish());
    }
}

/// Kernel code that overwrites itself or what follows.
pub fn self_changing(rng: &mut Rng, cases: &mut Vec<Case>) {
    for round in 0..16u32 {
        let mut desk = good_desk(rng, round % 2 == 0);
        let at = desk.maker.state.registers[PC];
        let inside = desk.maker.rng.below(26);
        let word = desk.maker.rng.word() & 0x0F0F_0F7F;
        let first = command(0x12, &[asm::immediate(word), asm::absolute(at + inside)]);
        let second = command(0x42, &[asm::immediate(3), asm::register(2)]);
        desk.maker.code(&[first, second].concat());
        desk.maker.step();
        desk.maker.step();
        cases.push(desk.maker.finish());
    }
}

/// Addresses and register steps that wrap.
pub fn wraps(rng: &mut Rng, cases: &mut Vec<Case>) {
    for round in 0..30u32 {
        let mut desk = good_desk(rng, round % 2 == 0);
        let mut state = desk.maker.state;
        state.registers[0] = 0xFFFF_FFFC + desk.maker.rng.below(4);
        state.registers[1] = desk.maker.rng.below(4);
        state.registers[2] = 0x4000_0000 + desk.maker.rng.below(4);
        state.registers[3] = desk.maker.rng.word();
        desk.maker.begin(state);
        let z = desk.maker.rng.word();
        let source = match round % 6 {
            0 => asm::raised(0),
            1 => asm::lowered(1),
            2 => asm::indexed(z, 0, 2),
            3 => asm::relative(z, 3),
            4 => asm::indexed(z, 3, 3),
            _ => asm::relative(4u32.wrapping_sub(state.registers[0]), 0),
        };
        let to = 4 + desk.maker.rng.below(9) as u8;
        desk.maker.code(&command(0x20, &[source, asm::register(to)]));
        desk.maker.step();
        if desk.maker.free_here() {
            let byte = 0x10 + desk.maker.rng.below(3) as u8;
            desk.maker.code(&command(byte, &[source, asm::register(to)]));
            desk.maker.step();
        }
        cases.push(desk.maker.finish());
    }
}

/// Memories above 8,192 bytes, up to the limit and past it.
pub fn large(rng: &mut Rng, cases: &mut Vec<Case>) {
    let lengths =
        [16_384, 65_536, 66_048, 131_072, 16_777_216, 16_777_216, 16_777_217, 16_777_728, 16_778_240, 16_776_704];
    for length in lengths {
        let mut maker = Maker::new(Rng::new(rng.next()), length as usize);
        let frames = length / 512;
        let (map_base, map_length) = (1024, 200);
        maker.lay_word(map_base, 0xC000_0000 | (frames - 1));
        maker.lay_word(map_base + 4, 0xC000_0000 | frames);
        maker.lay_word(map_base + 4 * 199, 0x8000_0000 | DATA | (frames - 2));
        maker.lay_word(8 * 10, 2048);
        maker.lay_word(8 * 10 + 4, KERNEL | 0x35);
        let user = [
            command(0x12, &[asm::immediate(0x0102_0304), asm::absolute(508)]),
            command(0x11, &[asm::absolute(199 * 512 + 510), asm::register(3)]),
            command(0x12, &[asm::absolute(510), asm::register(4)]),
        ]
        .concat();
        maker.lay((frames - 1) * 512, &user);
        maker.lay((frames - 1) * 512 - 2, &[0x88, 0x99]);
        maker.lay(2048, &command(0x10, &[asm::absolute(length - 1), asm::register(5)]));
        maker.lay(2048 + 13, &command(0x11, &[asm::absolute(length - 1), asm::register(5)]));
        let mut state = State::zero(0);
        state.mark = Mark::Running;
        (state.map_base, state.map_length) = (map_base, map_length);
        state.control_block = 256;
        maker.begin(state);
        for _ in 0..3 {
            maker.call(Call::Step);
        }
        maker.call(Call::Run(3));
        maker.call(Call::Fresh { system: length - 256, control: length - 80, start: 2048 });
        maker.call(Call::Step);
        cases.push(maker.finish());
    }
}

/// Short pages of code for the desk's own demands on lookups: a word across
/// two pages whose frames don't follow each other.
pub fn crossings(rng: &mut Rng, cases: &mut Vec<Case>) {
    for round in 0..24u32 {
        let mut desk: Layout = trap_desk(rng);
        // Pages 0 and 1 are good; swap their frames half the time.
        if round % 2 == 0 {
            let base = desk.maker.state.map_base;
            let (a, b) = (desk.maker.word(base), desk.maker.word(base + 4));
            desk.maker.lay_word(base, b);
            desk.maker.lay_word(base + 4, a);
        }
        let mut state = desk.maker.state;
        state.registers[PC] = 100;
        desk.maker.begin(state);
        let at = 512 - 1 - round % 3;
        let sized = 1 + (round / 3 % 2) as u8;
        let code = match round % 4 {
            0 => command(0x10 + sized, &[asm::absolute(at), asm::register(2)]),
            1 => command(0x40 + sized, &[asm::immediate(0x1357), asm::absolute(at)]),
            2 => command(0x1C + sized, &[asm::register(4), asm::absolute(at)]),
            _ => command(0x12, &[asm::indirect(at, 0), asm::register(3)]),
        };
        desk.maker.code(&code);
        desk.maker.step();
        cases.push(desk.maker.finish());
    }
}
