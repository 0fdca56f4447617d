//! Alarm 21 (request F-4): every command in a page without commands, and cut by one at each byte of
//! its operands; the ways that lead there; what comes before and after it.

use super::layout::{layout, Kind, Layout, DATA_KINDS};
use super::{family_rng, known_bytes, shuffle, until};
use crate::arith;
use crate::asm::{self, command};
use crate::case::{Call, Case};
use crate::code::decode;
use crate::operand::Fields;
use crate::rng::Rng;
use crate::state::*;

/// Four pages without commands, of both kinds, and writable pages before and after each.
pub fn data_desk(rng: &mut Rng) -> Layout {
    let mut data = [DATA_KINDS, DATA_KINDS].concat();
    shuffle(rng, &mut data);
    let mut kinds = vec![Kind::Writable];
    for kind in data {
        kinds.extend([kind, Kind::Writable]);
    }
    let mut desk = layout(Rng::new(rng.next()), &kinds, false);
    desk.registers();
    desk.aim();
    desk
}

/// The handler of the entry that was just made: it goes on at `target`, and gives the cause another
/// handler for the next time.
pub fn go_on(desk: &mut Layout, target: u32) {
    let Some(Event::Entry { cause, .. }) = desk.maker.last.map(|outcome| outcome.event) else { return };
    let State { control_block, system_block, .. } = desk.maker.state;
    let to = desk.maker.point_at(control_block + 60);
    let next = desk.maker.kernel_place(40);
    let commands = [
        command(0x12, &[asm::immediate(target), to]),
        command(0x12, &[asm::immediate(next), asm::absolute(system_block + 8 * cause)]),
        desk.maker.resume_here(),
    ];
    desk.maker.kernel_commands(&commands);
}

/// A command at R15. Where it enters the kernel, the desk goes on behind it.
pub fn tried(desk: &mut Layout, code: &[u8]) {
    let next = desk.maker.state.registers[PC].wrapping_add(code.len() as u32);
    desk.maker.code(code);
    desk.maker.step();
    go_on(desk, next);
}

/// Adds the case that was made.
pub fn keep(cases: &mut Vec<Case>, desk: Layout) {
    cases.push(desk.maker.finish_true().expect("a case that plays as it was made"));
}

/// A step that ends by alarm 21 with this argument, or `None`.
fn refused(desk: &mut Layout, argument: u32) -> Option<()> {
    let outcome = desk.maker.step();
    match outcome.event {
        Event::Entry { cause: 2, saved } if saved[68..] == argument.to_be_bytes() => Some(()),
        _ => None,
    }
}

/// The status, with flags by which a jump (70h to 78h) is taken, or isn't.
fn decided(rng: &mut Rng, mut status: u32, byte: u8, taken: bool) -> u32 {
    while matches!(byte, 0x70..=0x78) && arith::taken(byte, status) != taken {
        status = status & !FLAGS | rng.word() & FLAGS;
    }
    status
}

/// Ways to an address: the jumps, CALL and RET, a result in R15, RESUME, and a start there.
const WAYS: u32 = 14;

/// Goes to an address by one of the ways, from the start of a case on.
fn come_to(desk: &mut Layout, way: u32, target: u32) {
    let mut state = desk.maker.state;
    let byte = match way {
        0..=10 => 0x70 + way as u8,
        _ => 0x12,
    };
    match way {
        0..=11 => {
            state.status = decided(&mut desk.maker.rng, state.status, byte, true);
            desk.maker.begin(state);
            let code = desk.leading(byte, target);
            desk.maker.code(&code);
            desk.maker.step();
        }
        12 => {
            let block = state.control_block;
            let words = [target, state.status];
            for (i, word) in state.registers[..PC].iter().chain(&words).enumerate() {
                desk.maker.lay_word(block + 4 * i as u32, *word);
            }
            state.status = KERNEL;
            state.registers[PC] = desk.maker.kernel_place(7);
            desk.maker.begin(state);
            let code = desk.maker.resume_here();
            desk.maker.code(&code);
            desk.maker.step();
        }
        _ => {
            state.registers[PC] = target;
            desk.maker.begin(state);
        }
    }
}

/// One command: first it lies in a page without commands, and one of the ways leads there; then it
/// starts before such a page, once for each operand, which the page cuts.
fn of_command(rng: &mut Rng, round: u32, byte: u8) -> Option<Case> {
    let mut desk = data_desk(rng);
    let operands = decode(byte).unwrap().operands.len() as u32;
    let mut pages = desk.pages(&DATA_KINDS);
    shuffle(&mut desk.maker.rng, &mut pages);
    let code = desk.pick_command(byte, None);
    let size = code.len() as u32;
    let target = pages[0] * FRAME_BYTES
        + match round % 4 {
            0 => 0,
            1 => FRAME_BYTES - 1,
            2 => FRAME_BYTES - size,
            _ => desk.maker.rng.below(FRAME_BYTES - size),
        };
    desk.maker.code_at(target, &code);
    come_to(&mut desk, round % WAYS, target);
    refused(&mut desk, target)?;
    // RESUME's operand isn't fetched in user mode.
    let cuts = if byte == 5 { 0 } else { operands };
    for place in 1..=cuts {
        let start = pages[place as usize] * FRAME_BYTES;
        let own = start - (1 + 6 * (place - 1) + (round + place) % 6);
        go_on(&mut desk, own);
        if !desk.plain(own, size) {
            return None;
        }
        let code = desk.pick_command(byte, None);
        desk.maker.code(&code);
        refused(&mut desk, start)?;
    }
    desk.maker.finish_true()
}

/// Code that ends where a page without commands begins: the next step is alarm 21. Half of it is a
/// run, over the alarm and on.
fn straight_on(rng: &mut Rng, cases: &mut Vec<Case>) {
    for (round, byte) in [0x12, 0x44, 0x71, 0x01, 0x16, 0x60].into_iter().enumerate() {
        cases.push(until(|| {
            let mut desk = data_desk(rng);
            let start = desk.pages(&DATA_KINDS)[round % 4] * FRAME_BYTES;
            let mut state = desk.maker.state;
            let known = decode(byte).unwrap();
            state.registers[PC] = start - 1 - 6 * known.operands.len() as u32;
            if byte == 0x71 {
                state.status &= !Z;
            }
            desk.maker.begin(state);
            let code = desk.pick_command(byte, None);
            desk.maker.code(&code);
            if round % 2 == 0 {
                desk.maker.step();
                refused(&mut desk, start)?;
                go_on(&mut desk, start - code.len() as u32);
                desk.maker.call(Call::Run(2));
            } else {
                desk.maker.decide(2);
                let handler = desk.maker.word(state.system_block + 16);
                desk.maker.lay(handler, &command(0x42, &[asm::immediate(1), asm::register(2)]));
                desk.maker.call(Call::Run(4));
                let left = desk.maker.state;
                if (left.registers[PC], left.mark) != (handler + 14, Mark::Stopped(0)) {
                    return None;
                }
            }
            desk.maker.finish_true()
        }));
    }
}

/// Commands that a page without commands cuts, and that break another rule before or after.
fn cut(rng: &mut Rng, cases: &mut Vec<Case>) {
    let nine = Fields { form: 9, x: 3, y: 0, z: 7 };
    let lost = asm::absolute(0x4000_0000);
    let word = asm::immediate(3);
    // The command, how many of its bytes lie before the page, and the cause.
    let list: Vec<(Vec<u8>, u32, u32)> = vec![
        // Operand 1 is done before operand 2 is fetched: its form, its word, its value.
        (command(0x12, &[nine, word]), 7, 14),
        (command(0x44, &[word, nine, word]), 13, 14),
        (command(0x12, &[asm::indirect(0x4000_0000, 0), word]), 8, 8),
        (command(0x12, &[lost, asm::register(2)]), 7, 8),
        (command(0x46, &[word, lost, word]), 15, 8),
        // All six bytes are fetched before the form is judged.
        (command(0x12, &[nine, word]), 2, 2),
        (command(0x12, &[nine, word]), 6, 2),
        (command(0x5E, &[word, word, nine]), 14, 2),
        // The mode comes before the operand, an unknown byte too; a system call has an operand.
        (command(0x05, &[asm::absolute(256)]), 1, 13),
        (vec![0], 1, 13),
        (vec![0xFE], 1, 12),
        (command(0x03, &[asm::register(4)]), 1, 2),
        (command(0x03, &[asm::register(4)]), 4, 2),
        // DIV by zero and destinations come after.
        (command(0x5A, &[asm::immediate(0), asm::register(2)]), 9, 2),
        (command(0x5C, &[asm::immediate(0), word, asm::register(2)]), 13, 2),
        (command(0x14, &[lost]), 3, 2),
        (command(0x10, &[word, lost]), 12, 2),
        // Steps of an earlier operand are undone.
        (command(0x12, &[asm::raised(5), asm::register(2)]), 7, 2),
        (command(0x11, &[asm::lowered(6), asm::register(2)]), 10, 2),
        (command(0x44, &[asm::raised(7), asm::lowered(7), asm::raised(7)]), 18, 2),
        (command(0x46, &[asm::lowered(8), asm::raised(8), asm::register(8)]), 13, 2),
    ];
    for (code, before, cause) in list {
        cases.push(until(|| {
            let mut desk = data_desk(rng);
            let pages = desk.pages(&DATA_KINDS);
            let start = desk.maker.rng.pick(&pages) * FRAME_BYTES;
            let mut state = desk.maker.state;
            state.registers[0] = 0;
            state.registers[PC] = start - before;
            desk.maker.begin(state);
            desk.maker.code(&code);
            if cause == 2 {
                refused(&mut desk, start)?;
                return desk.maker.finish_true();
            }
            let event = desk.maker.step().event;
            let meant = matches!(event, Event::Entry { cause: found, .. } if found == cause);
            desk.maker.finish_true().filter(|_| meant)
        }));
    }
    // A jump that isn't taken, and CALL without a stack, fetch their operand all the same.
    for (byte, before) in [(0x71, 1), (0x72, 4), (0x75, 6), (0x78, 2), (0x79, 1), (0x79, 6)] {
        let mut desk = data_desk(rng);
        let pages = desk.pages(&DATA_KINDS);
        let mut state = desk.maker.state;
        state.status = decided(&mut desk.maker.rng, state.status, byte, false);
        state.registers[SP] = 0x4000_0000;
        state.registers[PC] = desk.maker.rng.pick(&pages) * FRAME_BYTES - before;
        desk.maker.begin(state);
        let target = desk.code_target();
        tried(&mut desk, &command(byte, &[asm::absolute(target)]));
        keep(cases, desk);
    }
}

/// Levels that are pending where the command byte can't be fetched: the interrupt comes first, and
/// alarm 21 after its handler. Then entries that hold no valid kernel status.
fn levels(rng: &mut Rng, cases: &mut Vec<Case>) {
    // Level, status level, and the causes whose entries are bad.
    let mut list: Vec<(u32, u32, &[u32])> = (1..16).map(|level| (level, level / 3, &[][..])).collect();
    list.extend([(5, 4, &[][..]), (5, 5, &[]), (2, 9, &[]), (5, 0, &[2]), (5, 0, &[21]), (5, 6, &[2]), (5, 7, &[21])]);
    list.extend([(1, 0, &[2][..]), (15, 15, &[2, 21]), (6, 5, &[21])]);
    for (round, (level, own, bad)) in list.into_iter().enumerate() {
        let mut desk = data_desk(rng);
        let mut state = desk.maker.state;
        state.pending = 1 << level;
        state.status = state.status & FLAGS | own << 4;
        // The command byte, after all levels an operand's byte too.
        let start = desk.pages(&DATA_KINDS)[level as usize % 4] * FRAME_BYTES;
        let cut = round >= 15 && round % 2 == 0;
        state.registers[PC] = if cut { start - 5 } else { start + desk.maker.rng.below(500) };
        desk.maker.begin(state);
        let code = desk.pick_command(0x12, None);
        desk.maker.code(&code);
        for cause in [2, 16 + level, 21] {
            desk.maker.bad_entries = if bad.contains(&cause) { 100 } else { 0 };
            desk.maker.decide(cause);
        }
        desk.maker.call(Call::Step);
        if level > own && !desk.maker.state.stopped() {
            let code = desk.maker.resume_here();
            desk.maker.kernel_commands(&[code]);
            desk.maker.call(Call::Step);
        }
        if desk.maker.state.stopped() {
            desk.maker.call(Call::Request(5));
            desk.maker.call(Call::Step);
        }
        keep(cases, desk);
    }
    // Stop 16 by entry 2, in a run too.
    for round in 0..8 {
        let mut desk = data_desk(rng);
        desk.maker.bad_entries = 100;
        let mut state = desk.maker.state;
        let start = desk.pages(&DATA_KINDS)[round % 4] * FRAME_BYTES;
        state.registers[PC] = if round < 4 { start } else { start - round as u32 };
        state.pending = if round % 3 == 0 { 0x20 } else { 0 };
        state.status = state.status & FLAGS | 0x50;
        desk.maker.begin(state);
        let code = command(0x12, &[asm::raised(5), asm::register(9)]);
        desk.maker.code(&code);
        desk.maker.decide(2);
        desk.maker.bad_entries = 0;
        desk.maker.decide(21);
        desk.maker.call(if round % 2 == 0 { Call::Step } else { Call::Run(3) });
        desk.maker.call(Call::Step);
        keep(cases, desk);
    }
}

pub fn fetches() -> Vec<Case> {
    let mut rng = family_rng("fetches");
    let mut cases = Vec::new();
    for (round, byte) in known_bytes().into_iter().enumerate() {
        cases.push(until(|| of_command(&mut rng, round as u32, byte)));
    }
    straight_on(&mut rng, &mut cases);
    cut(&mut rng, &mut cases);
    levels(&mut rng, &mut cases);
    cases
}
