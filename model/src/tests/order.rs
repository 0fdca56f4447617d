//! Order of the parts of a command, and what an alarm undoes.

use super::*;
use crate::asm::*;
use crate::operand::Fields;

/// A bench whose page 1 is absent, with a command ending its bytes at 512.
fn cut(bytes: &[u8]) -> Bench {
    let mut desk = user();
    desk.entry(1, 0);
    desk.state.registers[PC] = 512 - bytes.len() as u32;
    desk.code(bytes);
    desk
}

#[test]
fn whole_fetch_before_form() {
    // Form byte 9 at 511: byte two of the operand is absent.
    let mut desk = cut(&[0x12, 9]);
    assert_eq!(desk.alarmed(), (9, 512));
    let mut desk = cut(&command(0x12, &[Fields { form: 9, x: 0, y: 0, z: 0 }])[..]);
    assert_eq!(desk.alarmed(), (14, 1));
}

#[test]
fn operand_one_is_done_before_operand_two_is_fetched() {
    // The read of operand 1 fails before the fetch of operand 2.
    let mut desk = cut(&command(0x12, &[absolute(1024)]));
    desk.entry(2, 0);
    assert_eq!(desk.alarmed(), (9, 1024));
    let mut desk = cut(&command(0x12, &[absolute(1024)]));
    assert_eq!(desk.alarmed(), (9, 512));
}

#[test]
fn destination_is_looked_up_last() {
    // DIV by zero precedes a destination that cannot be written.
    let mut desk = user();
    desk.code(&command(0x5E, &[immediate(0), immediate(1), absolute(8 * 512)]));
    assert_eq!(desk.alarmed(), (15, 0));
    let mut desk = user();
    desk.entry(3, 0x8000_0007);
    desk.code(&command(0x5A, &[immediate(0), absolute(3 * 512)]));
    assert_eq!(desk.alarmed(), (15, 0));
    let mut desk = user();
    desk.entry(3, 0);
    desk.code(&command(0x5A, &[immediate(0), absolute(3 * 512)]));
    assert_eq!(desk.alarmed(), (9, 3 * 512));
    // The indirect word of a destination is read at its operand.
    let mut desk = user();
    desk.entry(3, 0);
    desk.code(&command(0x5E, &[immediate(0), immediate(1), indirect(3 * 512, 0)]));
    assert_eq!(desk.alarmed(), (9, 3 * 512));
    // A form rule of operand 3 precedes 15.
    let mut desk = user();
    desk.code(&command(0x5E, &[immediate(0), immediate(1), immediate(1)]));
    assert_eq!(desk.alarmed(), (14, 3));
}

#[test]
fn lookups_use_the_map_from_the_start() {
    // Page 2 holds the map's frame; the write's first bytes change the entry
    // of the page that its last bytes need.
    let mut desk = user();
    desk.state.map_base = 512 * 6 - 4;
    desk.state.map_length = 3;
    desk.word(512 * 6 - 4, 0xC000_0004);
    desk.word(512 * 6, 0xC000_0005);
    desk.word(512 * 6 + 4, 0xC000_0006);
    // Virtual 512 × 2 + 4 is the entry of page 2 itself.
    desk.code(&command(0x12, &[immediate(0), absolute(1028)]));
    assert_eq!(desk.step(), Event::Plain);
    assert_eq!(desk.get(512 * 6 + 4), 0);
    desk.code(&command(0x12, &[immediate(1), absolute(1028)]));
    assert_eq!(desk.alarmed(), (9, 1028));
}

#[test]
fn stack_bytes_upward() {
    // POPR over pages 1 (absent) and 2 (past the map).
    let mut desk = user();
    desk.state.map_length = 2;
    desk.entry(1, 0);
    desk.state.registers[SP] = 1024 - 4;
    desk.code(&[2]);
    assert_eq!(desk.alarmed(), (9, 1020));
    let mut desk = user();
    desk.state.map_length = 2;
    desk.state.registers[SP] = 1024 - 4;
    desk.code(&[2]);
    assert_eq!(desk.alarmed(), (8, 1024));
    // PUSHR: the new SP first.
    let mut desk = user();
    desk.entry(1, 0);
    desk.entry(2, 0x8000_0006);
    desk.state.registers[SP] = 1024 + 8;
    desk.code(&[1]);
    assert_eq!(desk.alarmed(), (9, 1024 + 8 - 60));
    let mut desk = user();
    desk.state.registers[SP] = 20;
    desk.code(&[1]);
    assert_eq!(desk.alarmed(), (8, 20u32.wrapping_sub(60)));
    let mut desk = user();
    desk.entry(2, 0x1234_5678);
    desk.state.registers[SP] = 1022;
    desk.code(&[0x7A]);
    assert_eq!(desk.alarmed(), (9, 1024));
}

#[test]
fn numbers_8_to_11_of_one_byte() {
    // Absent with forbidden bits is 9; damaged and read-only is 10.
    for (entry, number) in [(0x7F00_0006, 9), (0x8100_0006, 10), (0x80FF_FFFF, 10), (0x8000_0006, 11)] {
        let mut desk = user();
        desk.entry(2, entry);
        desk.code(&command(0x14, &[absolute(1024)]));
        assert_eq!(desk.alarmed(), (number, 1024));
    }
}

#[test]
fn repaired_command_runs_again() {
    // An absent page; kernel code repairs the entry and resumes.
    let mut desk = user();
    desk.entry(2, 0);
    desk.state.registers[1] = 7;
    desk.word(CONTROL + 72, MAP);
    desk.word(CONTROL + 76, 8);
    desk.code(&command(0x12, &[register(1), absolute(1024)]));
    let mut code = command(0x12, &[immediate(0xC000_0006), absolute(MAP + 8)]);
    code.extend(command(5, &[absolute(CONTROL)]));
    desk.put(0x600 + 8 * 9, &code);
    assert_eq!(desk.alarmed(), (9, 1024));
    let ran = desk::run(&desk.state, &mut desk.memory, 3);
    assert_eq!((ran.count, ran.state.registers[PC], ran.state.status), (3, 13, 0));
    assert_eq!(desk.get(6 * 512), 7);
}
