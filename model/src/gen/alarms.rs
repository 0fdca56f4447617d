//! Every alarm at every part of a command, in both modes.

use super::grid::good_desk;
use super::layout::Layout;
use super::pick::Seen;
use super::traps::trap_desk;
use super::{family_rng, integer_bytes, known_bytes};
use crate::asm;
use crate::case::{Call, Case};
use crate::code::{decode, Command, Op, Role};
use crate::entry::cause_of;
use crate::state::*;
use crate::work::Part;

/// The parts of a command where 8 to 11, 15 and 21 can come, and the numbers there.
pub fn parts(known: &Command) -> Vec<(Part, u32)> {
    let mut list = Vec::new();
    let mut add = |part, numbers: &[u32]| list.extend(numbers.iter().map(|number| (part, *number)));
    for (i, (role, _)) in known.operands.iter().enumerate() {
        let place = i as u32 + 1;
        add(Part::Fetch(place), &[8, 9, 10, 21]);
        add(Part::Indirect(place), &[8, 9, 10]);
        match role {
            Role::Value => add(Part::Value(place), &[8, 9, 10]),
            Role::Both => {
                add(Part::Value(place), &[8, 9, 10]);
                add(Part::Write, &[11]);
            }
            Role::Destination => add(Part::Write, &[8, 9, 10, 11]),
            Role::Address => {}
        }
    }
    match known.op {
        Op::Ret | Op::Popr => add(Part::Stack, &[8, 9, 10]),
        Op::Call | Op::Pushr => add(Part::Write, &[8, 9, 10, 11]),
        Op::Div => add(Part::Operation, &[15]),
        _ => {}
    }
    list
}

/// Sets SP of the start so that the stack fails with a number.
fn failing_stack(desk: &mut Layout, op: Op, number: u32) {
    let size = if matches!(op, Op::Popr | Op::Pushr) { 60 } else { 4 };
    let low = desk.failing(size, number);
    let mut state = desk.maker.state;
    state.registers[SP] = if matches!(op, Op::Call | Op::Pushr) { low.wrapping_add(size) } else { low };
    desk.maker.begin(state);
}

/// A command that fails at a part with a number, at the start of a case.
pub fn failing_command(desk: &mut Layout, byte: u8, part: Part, number: u32) -> Vec<u8> {
    let known = decode(byte).unwrap();
    let mut state = desk.maker.state;
    if let Part::Fetch(place) = part {
        let byte_of = 1 + 6 * (place - 1) + desk.maker.rng.below(6);
        state.registers[PC] = if state.kernel() {
            desk.maker.length() - byte_of
        } else {
            let page = if number == 8 { desk.kinds.len() as u32 } else { desk.failing_page(number) };
            page * FRAME_BYTES - byte_of
        };
        desk.maker.begin(state);
    }
    if part == Part::Stack || part == Part::Write && matches!(known.op, Op::Call | Op::Pushr) {
        failing_stack(desk, known.op, number);
    }
    let mut seen: Seen = desk.maker.state.registers;
    seen[PC] = seen[PC].wrapping_add(1);
    let mut operands = Vec::new();
    for (i, (role, format)) in known.operands.iter().enumerate() {
        seen[PC] = seen[PC].wrapping_add(6);
        let place = i as u32 + 1;
        let written = matches!(role, Role::Destination | Role::Both);
        let operand = if part == Part::Indirect(place) {
            desk.lost_word(&seen, number)
        } else if part == Part::Value(place) || part == Part::Write && written {
            let target = desk.failing(format.size(), number);
            desk.aimed(&mut seen, format.size(), target)
        } else if part == Part::Operation && place == 1 {
            asm::immediate(0)
        } else if known.op == Op::Div && place == 1 {
            asm::immediate(3)
        } else {
            desk.fine(&mut seen, known.op, *role, *format)
        };
        operands.push(operand);
    }
    asm::command(byte, &operands)
}

/// After an alarm: repair the page and resume, or go on elsewhere, or leave.
fn after_alarm(desk: &mut Layout, code: &[u8], own: u32) {
    let block = desk.maker.state.control_block;
    let argument = desk.maker.word(block + 68);
    let cause = match desk.maker.last.map(|outcome| outcome.event) {
        Some(Event::Entry { cause, .. }) => cause,
        _ => return,
    };
    let page = argument / FRAME_BYTES;
    let named = desk.maker.state.map_length;
    if desk.maker.rng.chance(45) {
        let frame = desk.first_frame + desk.maker.rng.below(desk.frames - desk.first_frame);
        let repair = match cause {
            2 | 9..=11 => {
                let to = desk.maker.point_at(desk.maker.state.map_base + 4 * page);
                asm::command(0x12, &[asm::immediate(0xC000_0000 | frame), to])
            }
            8 if page < named + 2 => asm::command(0x12, &[asm::immediate(page + 1), asm::absolute(block + 76)]),
            _ => return,
        };
        let resume = desk.maker.resume_here();
        desk.maker.kernel_commands(&[repair, resume]);
        if !desk.maker.state.kernel() {
            desk.maker.code_at(own, code);
        }
        desk.maker.step();
    } else if desk.maker.rng.chance(40) {
        let target = desk.code_target_of_user();
        desk.go_on_at(target);
        let bytes = known_bytes();
        let byte = desk.maker.rng.pick(&bytes[5..]);
        let code = desk.pick_command(byte, None);
        desk.maker.code(&code);
        desk.maker.step();
    }
}

/// Alarms 8 to 11, 15 and 21 in user mode.
pub fn alarms() -> Vec<Case> {
    let mut rng = family_rng("alarms");
    let mut items = Vec::new();
    let mut family: Option<(Op, usize)> = None;
    for byte in integer_bytes() {
        let known = decode(byte).unwrap();
        if matches!(known.op, Op::Halt | Op::Resume) {
            continue;
        }
        let list = parts(&known);
        // All parts for one width of each command, for the others each number but 21, which
        // `fetches.rs` has for all of them.
        let this = (known.op, known.operands.len());
        if family != Some(this) {
            items.extend(list.iter().map(|(part, number)| (byte, *part, *number)));
        } else {
            for wanted in [8, 9, 10, 11, 15] {
                let fitting: Vec<_> = list.iter().filter(|(_, number)| *number == wanted).collect();
                if !fitting.is_empty() {
                    let (part, number) = *rng.pick(&fitting);
                    items.push((byte, part, number));
                }
            }
        }
        family = Some(this);
    }
    let mut cases = Vec::new();
    for (byte, part, number) in items {
        // Registers set for one operand may spoil another: try again then.
        for _ in 0..20 {
            let mut desk = trap_desk(&mut rng);
            let code = failing_command(&mut desk, byte, part, number);
            desk.maker.code(&code);
            let own = desk.maker.state.registers[PC];
            let outcome = desk.maker.step();
            if !matches!(outcome.event, Event::Entry { cause, .. } if cause == cause_of(number)) {
                continue;
            }
            after_alarm(&mut desk, &code, own);
            cases.push(desk.maker.finish());
            break;
        }
    }
    // The command byte itself can't be fetched.
    for number in [8, 9, 10, 21] {
        for _ in 0..4 {
            let mut desk = trap_desk(&mut rng);
            let mut state = desk.maker.state;
            state.registers[PC] = desk.failing(1, number);
            desk.maker.begin(state);
            desk.maker.step();
            after_alarm(&mut desk, &[0x14, 2, 0, 0, 0, 0, 0], state.registers[PC]);
            cases.push(desk.maker.finish());
        }
    }
    cases
}

/// Alarms of every command in kernel mode, which stop the desk.
pub fn kernel_stops() -> Vec<Case> {
    let mut rng = family_rng("kernel stops");
    let mut cases = Vec::new();
    for byte in integer_bytes() {
        let known = decode(byte).unwrap();
        let mut list = parts(&known);
        list.retain(|(_, number)| *number == 8 || *number == 15);
        if known.op == Op::SystemCall {
            list = vec![(Part::Mode, 13)];
        }
        for (part, number) in list {
            let mut desk = good_desk(&mut rng, true);
            let code = failing_command(&mut desk, byte, part, number);
            desk.maker.code(&code);
            match desk.maker.rng.below(3) {
                0 => {
                    desk.maker.call(Call::Run(1 + byte as u32 % 3));
                }
                _ => {
                    desk.maker.call(Call::Step);
                }
            }
            if desk.maker.rng.chance(20) {
                desk.maker.call(Call::Step);
                desk.maker.call(Call::Request(5));
                desk.maker.call(Call::Run(0));
            }
            cases.push(desk.maker.finish());
        }
    }
    cases
}
