//! Commands that fail at several parts at once: the order decides.

use super::grid::good_desk;
use super::layout::Layout;
use super::pick::Seen;
use super::traps::{trap_desk, RULES};
use super::{family_rng, known_bytes};
use crate::asm;
use crate::case::{Call, Case};
use crate::code::{decode, Format, Op, Role};
use crate::state::*;

/// One operand that may be fine, break a rule, or fail at its word or place.
fn any_operand(desk: &mut Layout, seen: &mut Seen, op: Op, role: Role, format: Format) -> crate::operand::Fields {
    let size = format.size();
    let number = 8 + desk.maker.rng.below(4);
    match desk.maker.rng.below(10) {
        0 | 1 => {
            let rule = desk.maker.rng.below(RULES);
            match desk.broken(rule, role, format) {
                Some(fields) => fields,
                None => desk.fine(seen, op, role, format),
            }
        }
        2 | 3 => desk.lost_word(seen, number),
        4..=6 => {
            let target = desk.failing(size, number);
            desk.aimed(seen, size, target)
        }
        7 if op == Op::Div && role == Role::Value => asm::immediate(0),
        _ => desk.fine(seen, op, role, format),
    }
}

/// DIV by zero into a destination that can't be used either.
fn div_by_zero(cases: &mut Vec<Case>) {
    let mut rng = family_rng("div by zero");
    for round in 0..40u32 {
        let kernel = round % 8 == 7;
        let mut desk = if kernel { good_desk(&mut rng, true) } else { trap_desk(&mut rng) };
        let byte = 0x58 + (round % 3) as u8 + if round % 2 == 0 { 4 } else { 0 };
        let known = decode(byte).unwrap();
        let format = known.operands[0].1;
        let size = format.size();
        let number = 8 + round / 2 % 4;
        let mut seen = desk.maker.state.registers;
        seen[PC] = seen[PC].wrapping_add(7);
        let mut operands = vec![asm::immediate(0)];
        for (role, _) in &known.operands[1..] {
            seen[PC] = seen[PC].wrapping_add(6);
            operands.push(if *role == Role::Value {
                desk.fine(&mut seen, known.op, *role, format)
            } else {
                let number = if *role == Role::Both && round % 5 > 0 { 11 } else { number };
                let target = desk.failing(size, number);
                desk.aimed(&mut seen, size, target)
            });
        }
        let code = asm::command(byte, &operands);
        desk.maker.code(&code);
        desk.maker.step();
        cases.push(desk.maker.finish());
    }
}

pub fn orders() -> Vec<Case> {
    let mut rng = family_rng("orders");
    let mut cases = Vec::new();
    div_by_zero(&mut cases);
    let mut bytes: Vec<u8> = known_bytes();
    bytes.retain(|byte| !decode(*byte).unwrap().operands.is_empty());
    for round in 0..620 {
        let byte = match round % 10 {
            0 | 1 => 0x58 + 4 * (rng.below(2) as u8) + rng.below(3) as u8,
            2 => 0x79,
            3 => 0x71 + rng.below(8) as u8,
            4 => rng.pick(&[3, 5]),
            _ => rng.pick(&bytes),
        };
        let kernel = rng.chance(10);
        let mut desk = if kernel { good_desk(&mut rng, true) } else { trap_desk(&mut rng) };
        let known = decode(byte).unwrap();
        let mut state = desk.maker.state;
        let total = 6 * known.operands.len() as u32;
        // The code may be cut by a page that can't be fetched.
        if !kernel && desk.maker.rng.chance(35) {
            let number = desk.maker.rng.pick(&[8, 9, 10, 21]);
            let inside = 1 + desk.maker.rng.below(total);
            state.registers[PC] = (desk.failing_page(number) * FRAME_BYTES).wrapping_sub(inside);
        }
        if known.op == Op::Call && desk.maker.rng.chance(50) {
            let number = 8 + desk.maker.rng.below(4);
            state.registers[SP] = desk.failing(4, number).wrapping_add(4);
        }
        desk.maker.begin(state);
        let mut seen = desk.maker.state.registers;
        seen[PC] = seen[PC].wrapping_add(1);
        let mut operands = Vec::new();
        for (role, format) in &known.operands {
            seen[PC] = seen[PC].wrapping_add(6);
            operands.push(any_operand(&mut desk, &mut seen, known.op, *role, *format));
        }
        let code = asm::command(byte, &operands);
        desk.maker.code(&code);
        desk.maker.decide_next();
        desk.maker.call(Call::Step);
        cases.push(desk.maker.finish());
    }
    cases
}
