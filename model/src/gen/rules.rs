//! Broken form rules and unknown command bytes.

use super::grid::good_desk;
use super::layout::Layout;
use super::traps::RULES;
use super::{family_rng, known_bytes, shuffle, unknown_bytes, until};
use crate::asm;
use crate::case::{Call, Case};
use crate::code::{decode, Format, Role};
use crate::rng::Rng;
use crate::state::*;

/// Commands with a role and a format, and the operand's place (from 0).
fn users(role: Role, format: Format) -> Vec<(u8, usize)> {
    let mut list = Vec::new();
    for byte in known_bytes() {
        for (place, operand) in decode(byte).unwrap().operands.iter().enumerate() {
            if *operand == (role, format) {
                list.push((byte, place));
            }
        }
    }
    list
}

/// Every broken form rule for every role and format. In user mode the handler adds
/// the command's length to the saved R15 and resumes; in kernel mode each
/// stop is followed by a fresh desk.
pub fn rules() -> Vec<Case> {
    let mut rng = family_rng("rules");
    let mut items = Vec::new();
    for role in [Role::Value, Role::Address, Role::Destination, Role::Both] {
        for format in Format::ALL {
            let list = users(role, format);
            for rule in 0..RULES {
                if !list.is_empty() {
                    items.push((role, format, rule));
                }
            }
        }
    }
    let mut cases = Vec::new();
    for kernel in [false, true] {
        // By the command's length, since one handler serves a case.
        let mut by_length: Vec<Vec<(u8, usize, u32)>> = vec![Vec::new(); 3];
        for (role, format, rule) in &items {
            let mut list = users(*role, *format);
            list.retain(|(byte, _)| *byte != 3 && *byte != 5 || kernel == (*byte == 5));
            let (byte, place) = rng.pick(&list);
            by_length[decode(byte).unwrap().operands.len() - 1].push((byte, place, *rule));
        }
        if kernel {
            by_length[0].extend((0..RULES).map(|rule| (5, 0, rule)));
        } else {
            by_length[0].extend((0..RULES).map(|rule| (3, 0, rule)));
        }
        // Each command breaks a rule once.
        for byte in known_bytes() {
            let operands = decode(byte).unwrap().operands;
            if operands.is_empty() || byte == 3 || byte == 5 {
                continue;
            }
            let place = rng.below(operands.len() as u32) as usize;
            let rule = rng.pick(&[0, 1, 10, 11, 12, 13, 14, 15, 16, 17, 18]);
            by_length[operands.len() - 1].push((byte, place, rule));
        }
        // Forms 1 and 2 have no address, for each command that wants one.
        for rule in [3, 7] {
            by_length[0].extend((0x70..=0x79).map(|byte| (byte, 0, rule)));
            by_length[1].push((0x20, 0, rule));
        }
        for list in &mut by_length {
            shuffle(&mut rng, list);
            for batch in list.chunks(7) {
                cases.push(until(|| rules_case(&mut rng, kernel, batch)));
            }
        }
    }
    cases
}

fn broken_command(desk: &mut Layout, byte: u8, place: usize, rule: u32) -> Option<Vec<u8>> {
    let known = decode(byte).unwrap();
    let mut seen = desk.maker.state.registers;
    let mut operands = Vec::new();
    for (i, (role, format)) in known.operands.iter().enumerate() {
        operands.push(if i == place {
            desk.broken(rule, *role, *format)?
        } else {
            let form = if *role == Role::Value && *format != Format::D { 1 } else { 0 };
            desk.operand(&mut seen, known.op, *role, *format, form)
        });
    }
    Some(asm::command(byte, &operands))
}

/// Commands that break these rules, or `None` where one didn't come to that.
fn rules_case(rng: &mut Rng, kernel: bool, batch: &[(u8, usize, u32)]) -> Option<Case> {
    let mut desk = good_desk(rng, kernel);
    for (byte, place, rule) in batch {
        let Some(code) = broken_command(&mut desk, *byte, *place, *rule) else { continue };
        if kernel {
            if desk.maker.state.stopped() {
                let start = desk.code_target();
                let (system, control) = (desk.maker.state.system_block, desk.maker.state.control_block);
                desk.maker.call(Call::Fresh { system, control, start });
            }
            desk.maker.code(&code);
            if desk.maker.call(Call::Step).event != Event::Stop(14) {
                return None;
            }
            continue;
        }
        desk.maker.code(&code);
        if !matches!(desk.maker.step().event, Event::Entry { cause: 14, .. }) {
            return None;
        }
        skip(&mut desk, code.len() as u32);
    }
    desk.maker.finish_true()
}

/// The handler that skips a command of a length; laid once, run each time.
fn skip(desk: &mut Layout, length: u32) {
    let block = desk.maker.state.control_block;
    if desk.maker.free_here() {
        let mut code = asm::command(0x42, &[asm::immediate(length), asm::absolute(block + 60)]);
        code.extend(asm::command(5, &[asm::absolute(block)]));
        desk.maker.code(&code);
    }
    desk.maker.call(Call::Run(2));
}

/// Every unknown byte in both modes.
pub fn unknown() -> Vec<Case> {
    let mut rng = family_rng("unknown");
    let mut cases = Vec::new();
    for batch in unknown_bytes().chunks(31) {
        let mut desk = good_desk(&mut rng, false);
        for byte in batch {
            desk.maker.code(&[*byte]);
            desk.maker.step();
            skip(&mut desk, 1);
        }
        cases.push(desk.maker.finish());
        let mut desk = good_desk(&mut rng, true);
        for byte in batch {
            desk.maker.code(&[*byte]);
            desk.maker.call(Call::Step);
            let start = desk.maker.state.registers[PC] + 1;
            let (system, control) = (desk.maker.state.system_block, desk.maker.state.control_block);
            desk.maker.call(Call::Fresh { system, control, start });
        }
        cases.push(desk.maker.finish());
    }
    cases
}
