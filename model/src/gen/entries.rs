//! Interrupts at every level, status bits, system calls.

use super::family_rng;
use super::grid::good_desk;
use super::layout::Layout;
use crate::asm;
use crate::case::{Call, Case};
use crate::map::Reason;
use crate::state::*;

/// A simple command for either mode.
fn simple(desk: &mut Layout) -> Vec<u8> {
    let byte = desk.maker.rng.pick(&[0x12, 0x42, 0x49, 0x64, 0x28, 0x60, 0x1A]);
    desk.pick_command(byte, None)
}

/// One step of user code, laid if there is room.
pub fn user_step(desk: &mut Layout) {
    if desk.maker.free_here() {
        let code = simple(desk);
        desk.maker.code(&code);
    }
    desk.maker.step();
}

/// A handler: sometimes a command, then RESUME of the control block.
fn handle(desk: &mut Layout) {
    if desk.maker.state.stopped() || !desk.maker.state.kernel() {
        return;
    }
    if desk.maker.free_here() {
        let mut commands = Vec::new();
        if desk.maker.rng.chance(40) {
            let r = desk.maker.rng.below(14) as u8;
            commands.push(asm::command(0x42, &[asm::immediate(5), asm::register(r)]));
        }
        commands.push(desk.maker.resume_here());
        desk.maker.kernel_commands(&commands);
    } else {
        desk.maker.call(Call::Run(2));
    }
}

pub fn interrupts() -> Vec<Case> {
    let mut rng = family_rng("interrupts");
    let mut cases = Vec::new();
    for level in 1..=15u32 {
        for variant in 0..8 {
            let mut desk = good_desk(&mut rng, variant == 4);
            let mut state = desk.maker.state;
            let own = match variant {
                0 | 3 => level - 1,
                1 => level,
                6 => (level + 1).min(15),
                _ => desk.maker.rng.below(level),
            };
            state.status = state.status & !LEVEL | own << 4;
            if variant != 2 {
                state.pending = 1 << level;
            }
            if variant == 5 || variant == 7 {
                state.pending |= desk.maker.rng.word() as u16 & 0xFFFE;
            }
            if variant == 3 {
                desk.maker.bad_entries = 100;
            }
            desk.maker.begin(state);
            let requests = match variant {
                2 | 5 => 1 + desk.maker.rng.below(3),
                _ => 0,
            };
            if variant == 2 {
                desk.maker.call(Call::Request(level));
            }
            for _ in 0..requests {
                let asked = 1 + desk.maker.rng.below(15);
                desk.maker.call(Call::Request(asked));
            }
            if variant == 4 {
                // In kernel mode pending levels wait until RESUME.
                user_step(&mut desk);
                let block = desk.maker.state.control_block;
                let target = desk.code_target_of_user();
                desk.maker.lay_word(block + 60, target);
                desk.maker.lay_word(block + 64, own << 4);
                handle(&mut desk);
            }
            for _ in 0..if variant == 7 { 5 } else { 3 } {
                if desk.maker.state.stopped() {
                    break;
                }
                user_step(&mut desk);
                if desk.maker.rng.chance(20) {
                    let asked = 1 + desk.maker.rng.below(15);
                    desk.maker.call(Call::Request(asked));
                }
                handle(&mut desk);
            }
            if desk.maker.state.stopped() {
                desk.maker.call(Call::Request(level));
                desk.maker.call(Call::Step);
            }
            cases.push(desk.maker.finish());
        }
    }
    cases
}

/// Every undefined status bit, and the kernel bit, in an entry and in a
/// block that RESUME gets.
pub fn status_bits() -> Vec<Case> {
    let mut rng = family_rng("status bits");
    let mut cases = Vec::new();
    for bit in 8..32 {
        let mut desk = good_desk(&mut rng, false);
        let cause = desk.maker.rng.pick(&[1, 12]);
        desk.maker.decide(cause);
        let at = desk.maker.state.system_block + 8 * cause + 4;
        let status = desk.maker.word(at);
        desk.maker.lay_word(at, status ^ 1 << bit);
        let code = if cause == 1 { asm::command(3, &[asm::register(5)]) } else { vec![0x7F] };
        desk.maker.code(&code);
        desk.maker.call(Call::Step);
        cases.push(desk.maker.finish());
        let mut desk = good_desk(&mut rng, true);
        let block = desk.maker.state.control_block;
        let status = desk.maker.rng.word() & (LEVEL | FLAGS) | 1 << bit;
        desk.maker.lay_word(block + 64, status);
        let code = desk.maker.resume_here();
        desk.maker.code(&code);
        desk.maker.call(Call::Step);
        cases.push(desk.maker.finish());
    }
    // Map bases and blocks off a multiple of 4.
    for round in 0..6 {
        let mut desk = good_desk(&mut rng, true);
        let mut block = desk.maker.state.control_block;
        let offset = 1 + round % 3;
        if round < 3 {
            let base = desk.maker.state.map_base + offset;
            desk.maker.lay_word(block + 72, base);
        } else {
            block = desk.free_address(96, Reason::Write) / 4 * 4 + offset;
            for i in 0..20 {
                desk.maker.lay_word(block + 4 * i, 0);
            }
        }
        desk.maker.code(&asm::command(5, &[asm::absolute(block)]));
        desk.maker.call(Call::Step);
        cases.push(desk.maker.finish());
    }
    cases
}

/// System calls whose handlers look at the argument and answer in R0.
pub fn system_calls() -> Vec<Case> {
    let mut rng = family_rng("system calls");
    let mut cases = Vec::new();
    for round in 0..63u32 {
        let mut desk = good_desk(&mut rng, false);
        if round % 7 == 6 {
            desk.maker.bad_entries = 100;
        }
        let form = (round % 9) as u8;
        for _ in 0..2 {
            if desk.maker.state.kernel() || desk.maker.state.stopped() || !desk.maker.free_here() {
                break;
            }
            let code = desk.pick_command(3, Some((0, form)));
            desk.maker.code(&code);
            desk.maker.step();
            if desk.maker.state.stopped() {
                desk.maker.call(Call::Step);
                break;
            }
            if !desk.maker.state.kernel() {
                break;
            }
            if !desk.maker.free_here() {
                desk.maker.call(Call::Run(3));
                continue;
            }
            let block = desk.maker.state.control_block;
            let add = asm::command(
                0x46,
                &[asm::absolute(block + 68), asm::immediate(1), asm::absolute(block + 4 * (round % 15))],
            );
            let resume = desk.maker.resume_here();
            desk.maker.kernel_commands(&[add, resume]);
        }
        cases.push(desk.maker.finish());
    }
    cases
}
