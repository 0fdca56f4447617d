//! Commands on floating numbers (request F-6): every form of every operand, and every alarm at every
//! part, in both modes.

use super::alarms::{failing_command, parts};
use super::grid::good_desk;
use super::pick::forms_of;
use super::traps::{trap_desk, RULES};
use super::{family_rng, float_bytes, shuffle, until};
use crate::asm;
use crate::case::{Call, Case};
use crate::code::{decode, Op};
use crate::desk;
use crate::gen::layout::Layout;
use crate::notes::{Note, Notes};
use crate::rng::Rng;
use crate::state::*;
use crate::work::Part;

/// Commands, each with the form of one operand, as straight code in batches.
pub fn forms() -> Vec<Case> {
    let mut rng = family_rng("float forms");
    let mut cases = Vec::new();
    for kernel in [false, true] {
        let mut items = Vec::new();
        for byte in float_bytes() {
            for (place, (role, format)) in decode(byte).unwrap().operands.iter().enumerate() {
                items.extend(forms_of(*role, *format).iter().map(|form| (byte, place, *form)));
            }
        }
        shuffle(&mut rng, &mut items);
        while !items.is_empty() {
            let (made, rest) = some_forms(&mut rng, kernel, &items);
            if let Some(case) = made {
                cases.push(case);
                items = rest;
            }
        }
    }
    cases
}

/// A case with some of the forms, and those that are left; none where a command alarms.
fn some_forms(rng: &mut Rng, kernel: bool, items: &[(u8, usize, u8)]) -> (Option<Case>, Vec<(u8, usize, u8)>) {
    let mut desk = good_desk(rng, kernel);
    let mut rest = items.to_vec();
    for _ in 0..9 {
        let Some((byte, place, form)) = rest.pop() else { break };
        let code = desk.pick_command(byte, Some((place, form)));
        if !desk.plain(desk.maker.state.registers[PC], code.len() as u32) {
            rest.push((byte, place, form));
            break;
        }
        desk.maker.code(&code);
        if desk.maker.step().event != Event::Plain {
            return (None, Vec::new());
        }
    }
    let some = desk.maker.calls() > 0;
    (desk.maker.finish_true().filter(|_| some), rest)
}

/// The alarm of the coming step and its part.
fn alarm_of(desk: &Layout) -> Option<(u32, Part)> {
    let mut notes = Notes::kept();
    desk::step_noting(&mut notes, &desk.maker.state, &mut desk.maker.memory.clone());
    notes.list().iter().find_map(|note| match note {
        Note::Alarm { number, part } => Some((*number, *part)),
        _ => None,
    })
}

/// A command that alarms at a part, and in user mode one more step, with which its handler begins.
fn alarming(rng: &mut Rng, kernel: bool, byte: u8, part: Part, number: u32) -> Option<Case> {
    let mut desk = if kernel { good_desk(rng, true) } else { trap_desk(rng) };
    let code = match part {
        Part::Form(place) => {
            let known = decode(byte).unwrap();
            let mut seen = desk.maker.state.registers;
            seen[PC] = seen[PC].wrapping_add(1);
            let mut operands = Vec::new();
            for (i, (role, format)) in known.operands.iter().enumerate() {
                seen[PC] = seen[PC].wrapping_add(6);
                operands.push(if i as u32 + 1 == place {
                    let rule = desk.maker.rng.below(RULES);
                    desk.broken(rule, *role, *format)?
                } else {
                    desk.fine(&mut seen, known.op, *role, *format)
                });
            }
            asm::command(byte, &operands)
        }
        _ => failing_command(&mut desk, byte, part, number),
    };
    desk.maker.code(&code);
    if alarm_of(&desk) != Some((number, part)) {
        return None;
    }
    desk.maker.step();
    if !kernel {
        desk.maker.code(&[0]);
    }
    desk.maker.call(Call::Step);
    desk.maker.finish_true()
}

/// Alarms 8 to 11, 14 and 21 at every part.
pub fn alarms() -> Vec<Case> {
    let mut rng = family_rng("float alarms");
    let mut cases = Vec::new();
    for kernel in [false, true] {
        for byte in float_bytes() {
            let known = decode(byte).unwrap();
            assert!(matches!(known.op, Op::Float(_)));
            let mut list = parts(&known);
            list.extend((1..=known.operands.len() as u32).map(|place| (Part::Form(place), 14)));
            list.retain(|(_, number)| !kernel || matches!(number, 8 | 14));
            for (part, number) in list {
                cases.push(until(|| alarming(&mut rng, kernel, byte, part, number)));
            }
        }
    }
    cases
}
