//! Operands of the commands on floating numbers (request F-6).

use super::*;
use crate::asm::*;
use crate::code::decode;
use crate::operand::Fields;

/// Every byte from 80h on is one of these or unknown.
const BYTES: [u8; 20] = [
    0x80, 0x81, 0x84, 0x85, 0x88, 0x89, 0x8C, 0x8D, 0x90, 0x91, 0x94, 0x95, 0x98, 0x99, 0x9C, 0x9D, 0xA0, 0xA1, 0xA4,
    0xA5,
];

#[test]
fn known_bytes() {
    for byte in 0x7B..=0xFF {
        assert_eq!(decode(byte).is_some(), BYTES.contains(&byte), "{byte:02X}h");
    }
    for byte in BYTES {
        let operands = decode(byte).unwrap().operands.len();
        assert_eq!(operands, if byte % 8 >= 4 && byte < 0xA0 { 3 } else { 2 }, "{byte:02X}h");
    }
}

/// The high word is in register x, the low word in x + 1.
#[test]
fn long_in_registers() {
    for x in 0..14 {
        let mut desk = kernel();
        desk.put(1024, &[1, 2, 3, 4, 5, 6, 7, 8]);
        desk.code(&command(0xA1, &[absolute(1024), register(x)])).step();
        let before = kernel().state;
        for i in 0..15 {
            let wanted = match i {
                _ if i == usize::from(x) => 0x0102_0304,
                _ if i == usize::from(x) + 1 => 0x0506_0708,
                _ => before.registers[i],
            };
            assert_eq!(desk.state.registers[i], wanted);
        }
        desk.code(&command(0xA1, &[register(x), absolute(1040)])).step();
        assert_eq!((desk.get(1040), desk.get(1044)), (0x0102_0304, 0x0506_0708));
    }
}

/// Alarm 14: form 1 for D; in form 2 register 15 for F, 14 and 15 for D.
#[test]
fn form_rules() {
    for byte in BYTES {
        let operands = decode(byte).unwrap().operands.len();
        let long = byte % 2 == 1;
        for place in 0..operands {
            for x in 0..16 {
                let mut desk = user();
                let fields: Vec<Fields> =
                    (0..operands).map(|i| if i == place { register(x) } else { absolute(1024) }).collect();
                desk.code(&command(byte, &fields));
                if x == 15 || long && x == 14 {
                    assert_eq!(desk.alarmed(), (14, place as u32 + 1));
                } else {
                    assert_eq!(desk.step(), Event::Plain);
                }
            }
            let written = place + 1 == operands && byte < 0xA4;
            let mut desk = user();
            let fields: Vec<Fields> =
                (0..operands).map(|i| if i == place { immediate(0x3F80_0000) } else { absolute(1024) }).collect();
            desk.code(&command(byte, &fields));
            if long || written {
                assert_eq!(desk.alarmed(), (14, place as u32 + 1));
            } else {
                assert_eq!(desk.step(), Event::Plain);
            }
        }
    }
    // Integers in R15 stay as they were.
    let mut desk = user();
    desk.code(&command(0x12, &[register(15), register(3)]));
    assert_eq!(desk.step(), Event::Plain);
    assert_eq!(desk.state.registers[3], 7);
}

/// L is 4 and 8 in forms 4, 6, 7 and 8; the word of forms 5 and 6 has four bytes.
#[test]
fn lengths() {
    for (byte, size) in [(0xA0, 4), (0xA1, 8)] {
        for (form, step) in [(7, 0u32.wrapping_sub(size)), (8, size)] {
            let mut desk = kernel();
            desk.state.registers[1] = 1024;
            desk.code(&command(byte, &[Fields { form, x: 1, y: 0, z: 0 }, register(5)])).step();
            assert_eq!(desk.state.registers[1], 1024u32.wrapping_add(step));
        }
        for form in [4, 5, 6] {
            let mut desk = kernel();
            desk.state.registers[1] = 1024;
            desk.state.registers[2] = 3;
            desk.word(1034, 1100);
            desk.word(1034 + 3 * size, 0x1111_1111);
            desk.word(1100, 0x2222_2222);
            desk.word(1100 + 3 * size, 0x3333_3333);
            let y = if form == 5 { 0 } else { 2 };
            desk.code(&command(byte, &[Fields { form, x: 1, y, z: 10 }, register(5)])).step();
            assert_eq!(desk.state.registers[5], [0x1111_1111, 0x2222_2222, 0x3333_3333][form as usize - 4]);
        }
    }
    // A short number in the command itself.
    let mut desk = kernel();
    desk.code(&command(0xA0, &[immediate(0xFF80_0001), register(5)])).step();
    assert_eq!((desk.state.registers[5], desk.flags()), (0xFF80_0001, V));
}

/// Page by page, upward: the first byte that fails is the argument, and nothing is written.
#[test]
fn across_pages() {
    for before in 1..8 {
        for (entry, number) in [(0, 9), (0x8100_0006, 10), (0x8000_0006, 11), (0xC000_0007, 0)] {
            let mut desk = user();
            desk.state.registers[4] = 0x1122_3344;
            desk.state.registers[5] = 0x5566_7788;
            desk.entry(2, entry);
            let at = 1024 - before;
            desk.code(&command(0xA1, &[register(4), absolute(at)]));
            if number > 0 {
                assert_eq!(desk.alarmed(), (number, 1024));
                continue;
            }
            assert_eq!(desk.step(), Event::Plain);
            // Page 1 is in frame 5, page 2 in frame 7.
            let bytes = [0x11, 0x22, 0x33, 0x44, 0x55, 0x66, 0x77, 0x88];
            let (low, high) = bytes.split_at(before as usize);
            assert_eq!(&desk.memory[3072 - before as usize..3072], low);
            assert_eq!(&desk.memory[3584..3584 + high.len()], high);
            desk.code(&command(0xA1, &[absolute(at), register(8)])).step();
            assert_eq!((desk.state.registers[8], desk.state.registers[9]), (0x1122_3344, 0x5566_7788));
        }
    }
}

/// In kernel mode a long number at the end of the memory fits or stops the desk.
#[test]
fn end_of_memory() {
    for at in 8184..8193 {
        let mut desk = kernel();
        desk.code(&command(0xA1, &[register(4), absolute(at)]));
        if at == 8184 {
            assert_eq!(desk.step(), Event::Plain);
        } else {
            assert_eq!(desk.stopped(), 8);
        }
    }
}

/// The second operand of two is read and written, the third of three only written.
#[test]
fn roles() {
    let mut desk = kernel();
    desk.state.registers[4] = 0x3F80_0000;
    desk.state.registers[5] = 0x4040_0000;
    desk.code(&command(0x88, &[register(4), register(5)])).step();
    assert_eq!((desk.state.registers[4], desk.state.registers[5]), (0x3F80_0000, 0x4000_0000));
    desk.code(&command(0x8C, &[register(4), register(5), register(6)])).step();
    assert_eq!(desk.state.registers[4..7], [0x3F80_0000, 0x4000_0000, 0x3F80_0000]);
    // A page that may only be read holds a second operand of three, not of two.
    for (byte, fields, alarm) in [
        (0x80, vec![register(4), absolute(1024)], true),
        (0x84, vec![register(4), absolute(1024), register(6)], false),
        (0xA4, vec![register(4), absolute(1024)], false),
        (0xA0, vec![register(4), absolute(1024)], true),
    ] {
        let mut desk = user();
        desk.entry(2, 0x8000_0006);
        desk.code(&command(byte, &fields));
        if alarm {
            assert_eq!(desk.alarmed(), (11, 1024));
        } else {
            assert_eq!(desk.step(), Event::Plain);
        }
    }
}

/// Steps are undone by a later alarm; a result in a stepped register replaces the step.
#[test]
fn steps() {
    let mut desk = user();
    desk.state.registers[1] = 1024;
    desk.entry(7, 0);
    desk.code(&command(0x85, &[raised(1), raised(1), absolute(3584)]));
    assert_eq!(desk.alarmed(), (9, 3584));
    let mut desk = user();
    desk.state.registers[12] = 1024;
    desk.put(USER + 1024, &[9, 8, 7, 6, 5, 4, 3, 2]);
    desk.code(&command(0xA1, &[raised(12), register(12)]));
    assert_eq!(desk.step(), Event::Plain);
    assert_eq!(desk.state.registers[12..14], [0x0908_0706, 0x0504_0302]);
    // R13 is stepped before it is read as the low word.
    let mut desk = user();
    desk.state.registers[13] = 1024;
    desk.code(&command(0x85, &[raised(13), register(12), register(4)]));
    desk.put(USER + 1024, &[0; 8]);
    assert_eq!(desk.step(), Event::Plain);
    assert_eq!(desk.state.registers[4..6], [0, 1032]);
}

/// Division by zero is no alarm, so that the destination decides.
#[test]
fn division_by_zero() {
    let mut desk = user();
    desk.state.registers[4] = 0x3F80_0000;
    desk.code(&command(0x98, &[immediate(0), register(4)]));
    assert_eq!(desk.step(), Event::Plain);
    assert_eq!((desk.state.registers[4], desk.flags()), (0x7F80_0000, V));
    let mut desk = user();
    desk.entry(2, 0x8000_0006);
    desk.code(&command(0x98, &[immediate(0), absolute(1024)]));
    assert_eq!(desk.alarmed(), (11, 1024));
}
