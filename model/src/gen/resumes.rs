//! RESUME, of good blocks and of blocks with something wrong.

use super::entries::user_step;
use super::family_rng;
use super::grid::good_desk;
use super::layout::{value, Layout};
use crate::asm;
use crate::case::{Call, Case};
use crate::map::Reason;
use crate::operand::Fields;
use crate::rng::Rng;
use crate::state::*;

/// What is wrong with a block that RESUME gets.
const FLAWS: u32 = 22;

struct Block {
    at: u32,
    status: u32,
    map_base: u32,
    map_length: u32,
}

/// Spoils a good block in one way.
fn spoil(rng: &mut Rng, block: &mut Block, flaw: u32, length: u32) {
    match flaw {
        0 => block.at += 1 + rng.below(3),
        1 => block.at = length - 76,
        2 => block.at = length - 72,
        3 => block.at = length - 4 * (1 + rng.below(19)),
        4 => block.at = length,
        5 => block.at = 0xFFFF_FFFC - 4 * rng.below(30),
        6 => block.at = rng.word() & !3 | 0x0100_0000,
        7 => block.map_base += 1 + rng.below(3),
        8 => block.map_length = length.saturating_sub(block.map_base) / 4 + 1,
        9 => (block.map_base, block.map_length) = (length + 4, 0),
        10 => block.map_length = 0x4000_0000,
        11 => (block.map_base, block.map_length) = (0xFFFF_FFFC, 1),
        12 => (block.map_base, block.map_length) = (2, 0),
        13 => block.status |= KERNEL,
        14 => block.status |= 1 << (8 + rng.below(23)),
        15 => block.status = rng.word() | 0x100,
        16 => (block.map_base, block.map_length) = (0xFFFF_FF00, 0x40 + rng.below(16)),
        // Good ones at the limits.
        17 => block.at = length - 80,
        18 => block.map_length = length.saturating_sub(block.map_base) / 4,
        19 => (block.map_base, block.map_length) = (length, 0),
        20 => block.status |= LEVEL | FLAGS,
        _ => block.map_length = 0,
    }
}

pub fn resumes() -> Vec<Case> {
    let mut rng = family_rng("resume");
    let mut cases = Vec::new();
    for round in 0..198u32 {
        let mut desk = good_desk(&mut rng, true);
        let length = desk.maker.length();
        let mut block = Block {
            at: desk.free_address(80, Reason::Write) / 4 * 4,
            status: desk.maker.rng.word() & (LEVEL | FLAGS),
            map_base: desk.maker.state.map_base,
            map_length: desk.maker.state.map_length,
        };
        let flaw = round % (FLAWS + 11);
        if flaw < FLAWS {
            spoil(&mut desk.maker.rng, &mut block, flaw, length);
            if desk.maker.rng.chance(10) {
                let second = desk.maker.rng.below(FLAWS);
                spoil(&mut desk.maker.rng, &mut block, second, length);
            }
        }
        let mut state = desk.maker.state;
        if desk.maker.rng.chance(40) {
            state.pending = desk.maker.rng.word() as u16 & 0xFFFE;
        }
        // R15 somewhere in the user pages, in the other frames a ramp.
        let target = desk.code_target_of_user();
        // Forms 7 and 8 need the address in a register.
        state.registers[5] = block.at;
        state.registers[6] = block.at.wrapping_add(4);
        desk.maker.begin(state);
        let words = [(60, target), (64, block.status), (68, 0x0BAD_0BAD), (72, block.map_base), (76, block.map_length)];
        for i in 0..15 {
            if desk.maker.rng.chance(40) {
                let word = value(&mut desk.maker.rng, 4);
                desk.maker.lay_word(block.at.wrapping_add(4 * i), word);
            }
        }
        for (offset, word) in words {
            let at = block.at.wrapping_add(offset);
            if at < length {
                desk.maker.lay_word(at, word);
            }
        }
        let code = asm::command(5, &[resume_operand(&mut desk, round, block.at)]);
        desk.maker.code(&code);
        desk.maker.call(Call::Step);
        for _ in 0..2 {
            if !desk.maker.state.stopped() {
                user_step(&mut desk);
            }
        }
        // The next alarm or system call is saved to the new block.
        if !desk.maker.state.stopped() && !desk.maker.state.kernel() && desk.maker.free_here() {
            let word = desk.maker.rng.word();
            desk.maker.code(&asm::command(3, &[asm::immediate(word)]));
            desk.maker.step();
        }
        cases.push(desk.maker.finish());
    }
    cases
}

/// RESUME's operand in turn in each form.
fn resume_operand(desk: &mut Layout, round: u32, at: u32) -> Fields {
    match round % 7 {
        0 => asm::absolute(at),
        1 => asm::relative(0, 5),
        2 => asm::indexed(at.wrapping_sub(desk.maker.state.registers[2] * 4), 0, 2)
            .with_x_of(desk.maker.state.registers[0]),
        3 => {
            let place = desk.free_address(4, Reason::Write);
            desk.lay_at(place, &at.to_be_bytes());
            asm::indirect(place.wrapping_sub(desk.maker.state.registers[1]), 1)
        }
        4 => {
            let place = desk.free_address(4, Reason::Write);
            let word = at.wrapping_sub(desk.maker.state.registers[3] * 4);
            desk.lay_at(place, &word.to_be_bytes());
            asm::indirect_indexed(place.wrapping_sub(desk.maker.state.registers[1]), 1, 3)
        }
        5 => asm::lowered(6),
        _ => asm::raised(5),
    }
}

impl Fields {
    /// Takes the value of register 0 into account, which x = 0 adds.
    fn with_x_of(mut self, r0: u32) -> Fields {
        self.z = self.z.wrapping_sub(r0);
        self
    }
}
