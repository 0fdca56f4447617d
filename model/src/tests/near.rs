//! "Near misses".

use super::*;
use crate::asm::*;

#[test]
fn sub_and_cmp_differ_in_n() {
    // SUB takes the first from the second; CMP sets N if the first is less.
    let mut desk = kernel();
    desk.state.registers[1] = 3;
    desk.code(&[command(0x66, &[immediate(2), register(1)]), command(0x4A, &[immediate(2), register(1)])].concat());
    desk.step();
    assert_eq!(desk.flags(), N);
    desk.step();
    assert_eq!((desk.flags(), desk.state.registers[1]), (0, 1));
}

#[test]
fn every_byte_of_a_word_is_looked_up() {
    for at in [509, 510, 511] {
        let mut desk = user();
        desk.entry(1, 0);
        desk.code(&command(0x12, &[immediate(1), absolute(at)]));
        assert_eq!(desk.alarmed(), (9, 512));
        // Pages that follow each other need not lie in frames that do.
        let mut desk = user();
        desk.entry(1, 0xC000_000C);
        desk.code(&command(0x12, &[immediate(0xA1A2A3A4), absolute(at)]));
        desk.step();
        let bytes: Vec<u8> = (0..4)
            .map(|i| if at + i < 512 { USER + at + i } else { 0xC * 512 + at + i - 512 })
            .map(|real| desk.memory[real as usize])
            .collect();
        assert_eq!(bytes, [0xA1, 0xA2, 0xA3, 0xA4]);
    }
}

#[test]
fn form_8_raise_is_undone_by_an_alarm() {
    for (form, byte) in [(raised(3), 0x12), (lowered(3), 0x12)] {
        let mut desk = user();
        desk.state.registers[3] = 100;
        desk.entry(2, 0x8000_0006);
        desk.code(&command(byte, &[form, absolute(1024)]));
        assert_eq!(desk.alarmed(), (11, 1024));
        assert_eq!(desk.state.registers[3], 100);
    }
}

#[test]
fn pushr_writes_nothing_when_page_two_fails() {
    let mut desk = user();
    desk.state.registers = std::array::from_fn(|i| 0x1111_1111 * i as u32);
    desk.state.registers[PC] = 0;
    desk.state.registers[SP] = 512 + 30;
    desk.entry(1, 0x8000_0005);
    desk.code(&[1]);
    assert_eq!(desk.alarmed(), (11, 512));
}

#[test]
fn alarm_saves_the_own_address() {
    let mut desk = user();
    desk.state.registers[PC] = 77;
    desk.code(&command(0x59, &[immediate(0), register(1)]));
    assert_eq!(desk.entered(), (15, 0, 77));
}
