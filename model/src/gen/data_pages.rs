//! Pages without commands in use (request F-4): what is read and written there, entries with the
//! new bit and others, kernel mode, shared frames, and maps that change.

use super::fetches::{data_desk, go_on, keep, tried};
use super::layout::{layout, Kind, Layout, DATA_KINDS};
use super::{family_rng, until};
use crate::asm::{self, command};
use crate::case::{Call, Case};
use crate::map::{DATA, FRAME};
use crate::operand::Fields;
use crate::rng::Rng;
use crate::state::*;

/// A page of a kind, its first address.
fn page_of(desk: &Layout, kind: Kind) -> u32 {
    desk.pages(&[kind])[0] * FRAME_BYTES
}

/// Starts with R15 in page 0, which is writable, and other registers as given.
fn start(desk: &mut Layout, registers: &[(usize, u32)]) {
    let mut state = desk.maker.state;
    state.registers[PC] = desk.maker.rng.below(100);
    for (i, value) in registers {
        state.registers[*i] = *value;
    }
    desk.maker.begin(state);
}

/// Operands of `size` bytes whose bytes lie in a page, in every form with an address; the words of
/// forms 5 and 6 lie there too. Needs R1 = 5, R2 = 3, R12 and R13 as `stepped` says.
fn operands(desk: &mut Layout, page: u32, size: u32) -> Vec<Fields> {
    let at = |i: u32| page + 40 * i + 7;
    for (i, index) in [(3, 0), (4, 3 * size)] {
        let word = at(i) - index;
        desk.lay_at(page + 300 + 8 * i, &word.to_be_bytes());
    }
    vec![
        asm::absolute(at(0)),
        asm::relative(at(1) - 5, 1),
        asm::indexed(at(2) - 5 - 3 * size, 1, 2),
        asm::indirect(page + 324 - 5, 1),
        asm::indirect_indexed(page + 332 - 5, 1, 2),
        asm::lowered(12),
        asm::raised(13),
    ]
}

/// The registers for `operands`.
fn stepped(page: u32, size: u32) -> [(usize, u32); 4] {
    [(1, 5), (2, 3), (12, page + 207 + size), (13, page + 247)]
}

/// Values and destinations, and operands that are read and written, in every form; where the page
/// isn't writable, alarm 11 comes each time.
fn values(rng: &mut Rng, cases: &mut Vec<Case>) {
    for kind in DATA_KINDS {
        for k in 0..3u8 {
            let size = 1 << k;
            // MOVE from there, MOVE to there, ADD to there, and a third operand.
            for role in 0..4 {
                let mut desk = data_desk(rng);
                let page = page_of(&desk, kind);
                start(&mut desk, &stepped(page, size));
                for (i, operand) in operands(&mut desk, page, size).into_iter().enumerate() {
                    let value = asm::immediate(0x11 * i as u32 + 9);
                    let register = asm::register(3 + i as u8);
                    let code = match role {
                        0 => command(0x10 + k, &[operand, register]),
                        1 => command(0x10 + k, &[value, operand]),
                        2 => command(0x40 + k, &[value, operand]),
                        _ => command(0x4C + k, &[operand, value, register]),
                    };
                    tried(&mut desk, &code);
                }
                keep(cases, desk);
            }
        }
    }
}

/// The stack in such a page, or half in it: CALL and RET, PUSHR and POPR.
fn stacks(rng: &mut Rng, cases: &mut Vec<Case>) {
    for kind in DATA_KINDS {
        for place in [200, 30, 2, FRAME_BYTES + 30, FRAME_BYTES + 2, FRAME_BYTES - 66] {
            let mut desk = data_desk(rng);
            let top = page_of(&desk, kind) + place;
            start(&mut desk, &[(SP, top)]);
            let own = desk.maker.state.registers[PC];
            // CALL of the RET at the end, PUSHR, POPR; after an alarm the desk goes on behind.
            let sub = own + 60;
            desk.maker.code_at(sub, &[0x7A]);
            tried(&mut desk, &command(0x79, &[asm::absolute(sub)]));
            if desk.maker.state.registers[PC] == sub {
                desk.maker.step();
            }
            tried(&mut desk, &[1]);
            if desk.maker.state.registers[SP] == top {
                // Nothing was pushed: POPR finds words that are laid.
                for i in 0..15 {
                    let word = if i == 14 { top + 60 } else { 0x0101_0101 * i };
                    desk.lay_at(top + 4 * i, &word.to_be_bytes());
                }
            }
            tried(&mut desk, &[2]);
            // RET finds an address there, too.
            let sp = desk.maker.state.registers[SP];
            desk.lay_at(sp, &(own + 80).to_be_bytes());
            tried(&mut desk, &[0x7A]);
            tried(&mut desk, &command(0x12, &[asm::register(SP as u8), asm::register(2)]));
            keep(cases, desk);
        }
    }
    // Values and words across the border of such a page.
    for kind in DATA_KINDS {
        for back in 1..4 {
            let mut desk = data_desk(rng);
            let page = page_of(&desk, kind);
            start(&mut desk, &[(1, 5)]);
            for border in [page, page + FRAME_BYTES] {
                let at = border - back;
                tried(&mut desk, &command(0x12, &[asm::absolute(at), asm::register(3)]));
                tried(&mut desk, &command(0x1A, &[asm::register(3), asm::absolute(at)]));
                tried(&mut desk, &command(0x4A, &[asm::register(1), asm::absolute(at)]));
                tried(&mut desk, &command(0x20, &[asm::indirect(at - 5, 1), asm::register(4)]));
            }
            keep(cases, desk);
        }
    }
}

/// Every entry: absent, with each forbidden bit, past the memory, or good; with and without the
/// writable bit and the new one. A jump leads to its page, and it is read and written.
fn entries(rng: &mut Rng, cases: &mut Vec<Case>) {
    for what in 0..9u32 {
        for bits in 0..4u32 {
            let mut desk = data_desk(rng);
            let at = desk.maker.state.map_base + 4;
            let frame = desk.maker.word(at) & FRAME;
            let entry = match what {
                0 => frame,
                1..=5 => 0x8000_0000 | 1 << (23 + what) | frame,
                6 => 0x8000_0000 | desk.frames,
                7 => 0x8000_0000 | frame,
                _ => 0x9F00_0000 | frame,
            };
            desk.maker.lay_word(at, entry | bits << 29);
            start(&mut desk, &[(3, 0x1234_5678)]);
            let next = desk.maker.state.registers[PC] + 7;
            // Where commands can be fetched, the desk jumps back.
            let target = FRAME_BYTES + 20 + desk.maker.rng.below(480);
            desk.maker.code_at(target, &command(0x70, &[asm::absolute(next)]));
            desk.maker.code(&command(0x70, &[asm::absolute(target)]));
            desk.maker.step();
            desk.maker.step();
            go_on(&mut desk, next);
            let at = FRAME_BYTES + 509;
            tried(&mut desk, &command(0x10, &[asm::absolute(at), asm::register(4)]));
            tried(&mut desk, &command(0x10, &[asm::register(3), asm::absolute(at)]));
            // An operand's byte.
            let own = FRAME_BYTES - 1 - desk.maker.rng.below(6);
            tried(&mut desk, &command(0x70, &[asm::absolute(own)]));
            tried(&mut desk, &command(0x1C, &[asm::immediate(7), asm::register(5)]));
            keep(cases, desk);
        }
    }
}

/// Pages at and past the map length, whose entries would have the new bit: alarm 8.
fn lengths(rng: &mut Rng, cases: &mut Vec<Case>) {
    for round in 0..6u32 {
        let mut desk = data_desk(rng);
        let mut state = desk.maker.state;
        let base = state.map_base;
        state.map_length = [1, 2, 0, 9, 1, 3][round as usize];
        for page in state.map_length..11 {
            let entry = desk.maker.word(base + 4 * page);
            desk.maker.lay_word(base + 4 * page, entry | 0xC000_0000 | DATA);
        }
        let edge = state.map_length * FRAME_BYTES;
        state.registers[PC] = if round < 4 { edge + round * 130 } else { edge - 1 - round };
        desk.maker.begin(state);
        let code = command(0x12, &[asm::immediate(1), asm::register(2)]);
        desk.maker.code(&code);
        desk.maker.step();
        keep(cases, desk);
    }
}

/// Kernel mode, where no address is mapped: code in frames whose numbers are pages without
/// commands, and in frames that such pages name.
fn kernel(rng: &mut Rng, cases: &mut Vec<Case>) {
    for round in 0..6 {
        cases.push(until(|| {
            let mut desk = layout(Rng::new(rng.next()), &[DATA_KINDS[round % 2]; 9], false);
            let mut state = desk.maker.state;
            state.status |= KERNEL;
            state.registers[PC] = match round {
                0 | 1 => 2 * FRAME_BYTES + 100,
                2 => desk.first_frame * FRAME_BYTES + 80,
                3 => desk.maker.length() - FRAME_BYTES,
                4 => 9 * FRAME_BYTES - 20,
                _ => (desk.first_frame + 1) * FRAME_BYTES - 10,
            };
            desk.maker.begin(state);
            desk.registers();
            for byte in [0x12, 0x46, 0x70, 0x49] {
                let code = desk.pick_command(byte, None);
                desk.maker.code(&code);
                if desk.maker.step().event != Event::Plain {
                    return None;
                }
            }
            desk.maker.finish_true()
        }));
    }
}

/// Two pages that name one frame, one of them without commands: it is the entry that counts. What
/// is written through that page runs through the other.
fn shared(rng: &mut Rng, cases: &mut Vec<Case>) {
    for kind in [Kind::WritableData, Kind::ReadOnlyData, Kind::WritableData, Kind::ReadOnlyData] {
        let mut desk = data_desk(rng);
        let page = page_of(&desk, kind);
        let base = desk.maker.state.map_base;
        let frame = desk.maker.word(base) & FRAME;
        let bits = if kind == Kind::WritableData { 0xC000_0000 } else { 0x8000_0000 };
        desk.maker.lay_word(base + 4 * (page / FRAME_BYTES), bits | DATA | frame);
        start(&mut desk, &[]);
        let own = desk.maker.state.registers[PC];
        // The value of the second command is changed through the other page.
        let second = own + 13;
        let add = command(0x42, &[asm::immediate(0x0102_0304), asm::register(6)]);
        desk.maker.code_at(second, &add);
        tried(&mut desk, &command(0x12, &[asm::immediate(0x0908_0706), asm::absolute(page + second + 3)]));
        desk.maker.step();
        tried(&mut desk, &command(0x70, &[asm::absolute(page + second)]));
        desk.maker.step();
        go_on(&mut desk, second);
        desk.maker.step();
        keep(cases, desk);
    }
}

/// Maps that change: by the program itself, by a handler that mends the page and tries again, and
/// by one that takes the commands out of it.
fn changes(rng: &mut Rng, cases: &mut Vec<Case>) {
    for round in 0..6u32 {
        let mut desk = data_desk(rng);
        let base = desk.maker.state.map_base;
        // Page 2 is the map's frame. The bit is set in the entry of the program's own page or of
        // page 4, or cleared in that of page 3.
        let page = [0, 4, 3][round as usize % 3];
        let place = base + 4 * page;
        desk.maker.lay_word(base + 8, 0xC000_0000 | place / FRAME_BYTES);
        start(&mut desk, &[]);
        let own = desk.maker.state.registers[PC];
        let entry = 2 * FRAME_BYTES + place % FRAME_BYTES;
        let (byte, target) = if page == 0 { (0x28, own + 13) } else { (0x38, page * FRAME_BYTES + 9) };
        desk.maker.code_at(target, &command(0x12, &[asm::immediate(5), asm::register(2)]));
        tried(&mut desk, &command(byte, &[asm::immediate(0x20), asm::absolute(entry)]));
        if page > 0 && !desk.maker.state.kernel() {
            tried(&mut desk, &command(0x70, &[asm::absolute(target)]));
        }
        desk.maker.step();
        keep(cases, desk);
    }
    for round in 0..8u32 {
        let mut desk = data_desk(rng);
        let pages = desk.pages(&DATA_KINDS);
        let page = desk.maker.rng.pick(&pages);
        let cut = if round % 2 == 0 { 0 } else { 1 + desk.maker.rng.below(12) };
        start(&mut desk, &[(PC, page * FRAME_BYTES - cut)]);
        desk.maker.code(&command(0x42, &[asm::raised(5), asm::register(2)]));
        desk.maker.step();
        let entry = desk.maker.state.map_base + 4 * page;
        // ANDNOT of the bit; or of the present bit, so that alarm 9 comes.
        let bit = if round < 6 { 0x20 } else { 0x80 };
        let mend = command(0x30, &[asm::immediate(bit), asm::absolute(entry)]);
        let resume = desk.maker.resume_here();
        desk.maker.kernel_commands(&[mend, resume]);
        desk.maker.step();
        keep(cases, desk);
    }
    for round in 0..4u32 {
        let mut desk = data_desk(rng);
        start(&mut desk, &[]);
        let code = command(3, &[asm::immediate(round)]);
        desk.maker.code(&code);
        desk.maker.step();
        let base = desk.maker.state.map_base;
        let set = command(0x28, &[asm::immediate(0x20), asm::absolute(base)]);
        let resume = desk.maker.resume_here();
        desk.maker.kernel_commands(&[set, resume]);
        let code = desk.pick_command(0x12, None);
        desk.maker.code(&code);
        desk.maker.step();
        keep(cases, desk);
    }
}

/// Street names in a page of their own: a program reads them, and a bad jump leads there.
fn names(rng: &mut Rng, cases: &mut Vec<Case>) {
    let names = b"Ahornweg\0Birkenallee\0Domplatz\0Eichenstra\xC3\x9Fe\0Fischmarkt\0";
    for round in 0..4 {
        let mut desk = data_desk(rng);
        let page = page_of(&desk, DATA_KINDS[round % 2]);
        desk.lay_at(page, names);
        start(&mut desk, &[(1, page), (2, 0)]);
        let own = desk.maker.state.registers[PC];
        // Counts the letters of a name; at its end it jumps to the next name.
        let code = [
            command(0x64, &[asm::raised(1), asm::immediate(0)]),
            command(0x71, &[asm::relative(0, 1)]),
            command(0x42, &[asm::immediate(1), asm::register(2)]),
            command(0x70, &[asm::absolute(own)]),
        ];
        desk.maker.code(&code.concat());
        desk.maker.decide(2);
        if round < 2 {
            desk.maker.call(Call::Run(34));
            desk.maker.call(Call::Step);
        }
        desk.maker.call(Call::Run(40));
        keep(cases, desk);
    }
}

pub fn data_pages() -> Vec<Case> {
    let mut rng = family_rng("data pages");
    let mut cases = Vec::new();
    values(&mut rng, &mut cases);
    stacks(&mut rng, &mut cases);
    entries(&mut rng, &mut cases);
    lengths(&mut rng, &mut cases);
    kernel(&mut rng, &mut cases);
    shared(&mut rng, &mut cases);
    changes(&mut rng, &mut cases);
    names(&mut rng, &mut cases);
    cases
}
