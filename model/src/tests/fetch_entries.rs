//! Number 21, pages without commands (request F-4): its kernel entries, what comes before them, and
//! where they lead.

use super::fetches::{at, with, BOTH, PAGE};
use super::*;
use crate::asm::*;
use crate::operand::Fields;

#[test]
fn between_the_parts_of_a_command() {
    let nine = Fields { form: 9, x: 0, y: 0, z: 0 };
    // Operand 1 is done before operand 2 is fetched.
    for (first, alarm) in [(nine, (14, 1)), (absolute(8 * 512), (8, 4096)), (indirect(8 * 512, 0), (8, 4096))] {
        let mut desk = at(BOTH[0], PAGE - 7, &command(0x12, &[first, register(1)]));
        assert_eq!(desk.alarmed(), alarm);
    }
    // The form is judged after all six bytes; DIV by zero and the write come later.
    let zero = command(0x5E, &[immediate(0), immediate(1), absolute(8 * 512)]);
    for (code, before) in [(command(0x12, &[nine, register(1)]), 6), (zero, 13)] {
        let mut desk = at(BOTH[0], PAGE - before, &code);
        assert_eq!(desk.alarmed(), (2, PAGE));
    }
    // Mode and an unknown byte come before the operand.
    for (byte, number) in [(0x05, 13), (0x00, 13), (0x7F, 12)] {
        let mut desk = at(BOTH[0], PAGE - 1, &[byte]);
        assert_eq!(desk.alarmed(), (number, u32::from(byte)));
    }
    // A jump that isn't taken, and CALL without a stack.
    for byte in [0x71, 0x79] {
        let mut desk = at(BOTH[0], PAGE - 3, &command(byte, &[absolute(0)]));
        assert_eq!(desk.alarmed(), (2, PAGE));
    }
    // Registers are those of the command's start, also R15, whichever operand fails.
    for (place, before) in [(2, 7), (2, 12), (3, 13), (3, 18)] {
        let mut desk = at(BOTH[0], PAGE - before, &command(0x46, &[raised(4), lowered(5), register(6)]));
        (desk.state.registers[4], desk.state.registers[5]) = (2048, 2100);
        desk.state.status = 0x70 | N | C;
        assert_eq!(desk.alarmed(), (2, PAGE), "operand {place}");
        assert_eq!((desk.get(CONTROL + 16), desk.get(CONTROL + 20)), (2048, 2100));
    }
}

#[test]
fn ways_to_such_a_page() {
    // A jump isn't refused; the step there is, with its own address.
    for code in [
        command(0x70, &[absolute(PAGE + 17)]),
        command(0x79, &[absolute(PAGE + 17)]),
        command(0x12, &[immediate(PAGE + 17), register(15)]),
        vec![0x7A],
    ] {
        let mut desk = with(BOTH[0]);
        desk.state.registers[SP] = 2048;
        desk.word(USER + 2048, PAGE + 17);
        desk.code(&code);
        assert_eq!(desk.step(), Event::Plain);
        assert_eq!(desk.state.registers[PC], PAGE + 17);
        assert_eq!(desk.alarmed(), (2, PAGE + 17));
    }
    // RESUME isn't either.
    let mut desk = kernel();
    desk.entry(2, BOTH[1]);
    for (offset, word) in [(60, PAGE + 17), (64, 0x30), (72, MAP), (76, 8)] {
        desk.word(CONTROL + offset, word);
    }
    desk.code(&command(5, &[absolute(CONTROL)]));
    assert_eq!(desk.step(), Event::Plain);
    assert_eq!(desk.alarmed(), (2, PAGE + 17));
    // A run counts the entry and goes on in the kernel.
    let mut desk = with(BOTH[1]);
    desk.code(&command(0x70, &[absolute(PAGE)]));
    let ran = desk::run(&desk.state, &mut desk.memory, 10);
    assert_eq!((ran.count, ran.state.mark, ran.state.registers[PC]), (3, Mark::Stopped(0), 0x611));
}

#[test]
fn cause_2_and_level_5() {
    // The interrupt comes first, with cause 21 and its own entry.
    let mut desk = at(BOTH[0], PAGE, &[0x01]);
    desk.state.pending = 1 << 5 | 1 << 2;
    desk.state.status = 0x20;
    assert_eq!(desk.entered(), (21, 5, PAGE));
    assert_eq!(desk.state.pending, 1 << 2);
    desk.state.status = 0x20;
    desk.state.registers[PC] = PAGE;
    assert_eq!(desk.alarmed(), (2, PAGE));
    // A level that isn't above the status level waits.
    let mut desk = at(BOTH[0], PAGE, &[0x01]);
    desk.state.pending = 1 << 5;
    desk.state.status = 0x50;
    assert_eq!(desk.alarmed(), (2, PAGE));
    assert_eq!(desk.state.pending, 1 << 5);
    // Stop 16 by entry 2 alone: entry 21 doesn't concern alarm 21, nor entry 2 the interrupt.
    for status in [0, 0xFF, 0x8000_0100, 0x4000_0000] {
        for (entry, pending, stops) in [(2, 0, true), (21, 0, false), (2, 0x20, false), (21, 0x20, true)] {
            let code = command(0x12, &[raised(4), register(1)]);
            let mut desk = at(BOTH[1], PAGE - 7, &code);
            desk.state.pending = pending;
            desk.word(8 * entry + 4, status);
            if stops {
                assert_eq!(desk.stopped(), 16);
            } else {
                assert_eq!(desk.entered().0, if pending == 0 { 2 } else { 21 });
            }
        }
    }
}

#[test]
fn maps_that_change() {
    // Page 1 is the map's frame. The program sets the bit in its own page's entry: the command
    // itself is done, the next one is refused.
    let mut desk = user();
    desk.entry(1, 0xC000_0000);
    desk.code(&command(0x28, &[immediate(0x20), absolute(512 + MAP)]));
    assert_eq!(desk.step(), Event::Plain);
    assert_eq!(desk.get(MAP), 0xE000_0004);
    assert_eq!(desk.alarmed(), (2, 13));
    // Kernel code clears the bit and resumes; the command runs.
    let mut desk = at(BOTH[1], PAGE - 9, &command(0x12, &[raised(4), register(1)]));
    desk.state.registers[4] = 2048;
    desk.word(CONTROL + 72, MAP);
    desk.word(CONTROL + 76, 8);
    desk.word(USER + 2048, 99);
    let mend = command(0x30, &[immediate(0x20), absolute(MAP + 8)]);
    desk.put(0x610, &[mend, command(5, &[absolute(CONTROL)])].concat());
    assert_eq!(desk.alarmed(), (2, PAGE));
    let ran = desk::run(&desk.state, &mut desk.memory, 3);
    assert_eq!((ran.count, ran.state.registers[PC]), (3, PAGE + 4));
    assert_eq!((ran.state.registers[1], ran.state.registers[4]), (99, 2052));
}
