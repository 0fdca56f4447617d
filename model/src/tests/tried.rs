//! "Tried values", marked and unmarked.

use super::*;
use crate::asm::*;
use crate::trace::trace;

/// Runs one command with the second operand in R1 and gives R1 and the flags.
fn on_r1(byte: u8, first: u32, r1: u32) -> (u32, u32) {
    let mut desk = kernel();
    desk.state.registers[1] = r1;
    desk.code(&command(byte, &[immediate(first), register(1)])).step();
    (desk.state.registers[1], desk.flags())
}

#[test]
fn value_1_highest_byte_first() {
    let mut desk = kernel();
    desk.code(&command(0x12, &[immediate(0x01020304), absolute(1024)])).step();
    assert_eq!(desk.memory[1024..1028], [1, 2, 3, 4]);
}

#[test]
fn value_2_move_byte_to_register() {
    let mut desk = kernel();
    desk.state.registers[0] = 0xFFFF_FFFF;
    desk.code(&command(0x10, &[immediate(2), register(0)])).step();
    assert_eq!((desk.state.registers[0], desk.flags()), (0xFFFF_FF02, 0));
}

#[test]
fn value_3_add() {
    assert_eq!(on_r1(0x40, 1, 0x7F), (0x80, N | V));
}

#[test]
fn value_4_sub() {
    assert_eq!(on_r1(0x48, 1, 0), (0xFF, N | C));
}

#[test]
fn value_5_cmp() {
    let mut desk = kernel();
    desk.state.status |= FLAGS;
    desk.code(&command(0x66, &[immediate(2), immediate(3)])).step();
    assert_eq!(desk.flags(), N);
}

#[test]
fn value_6_div_lowest_by_minus_one() {
    assert_eq!(on_r1(0x58, 0xFF, 0x80), (0x80, N | V));
}

#[test]
fn value_7_div_drops_the_fraction() {
    assert_eq!(on_r1(0x5A, 2, -7i32 as u32), (-3i32 as u32, N));
}

#[test]
fn value_8_conv() {
    assert_eq!(on_r1(0x21, 0x80, 0), (0xFFFF_FF80, N));
}

/// SH and ROT have three operands.
fn three(byte: u8, count: u32, operand: u32) -> (u32, u32) {
    let mut desk = kernel();
    desk.code(&command(byte, &[immediate(count), immediate(operand), register(1)])).step();
    (desk.state.registers[1], desk.flags())
}

#[test]
fn value_9_rot() {
    assert_eq!(three(0x61, 33, 0x8000_0001), (3, 0));
}

#[test]
fn value_10_sh() {
    assert_eq!(three(0x60, -31i32 as u32, 0x8000_0000), (0xFFFF_FFFF, N));
}

#[test]
fn value_11_pushr_popr() {
    let mut desk = kernel();
    desk.state.registers = std::array::from_fn(|i| 100 + i as u32);
    desk.state.registers[SP] = 1000;
    desk.state.registers[PC] = 512;
    desk.code(&[1, 2]).step();
    assert_eq!(desk.get(996), 996);
    assert_eq!(desk.state.registers[SP], 940);
    for i in 0..14 {
        assert_eq!(desk.get(940 + 4 * i), 100 + i);
    }
    let before = desk.state.registers;
    desk.state.registers[..14].fill(0);
    desk.step();
    assert_eq!(desk.state.registers[SP], 1000);
    assert_eq!(desk.state.registers[..14], before[..14]);
}

#[test]
fn memory_lengths() {
    for (length, refusal) in [(512, 0), (1024, 0), (513, 1)] {
        let made = crate::desk::fresh(length, 0, 256, 512);
        assert_eq!(made.refusal, refusal);
        let state = State { mark: Mark::Running, ..crate::desk::fresh(512, 0, 256, 0).state };
        let mut memory = vec![0; length as usize];
        assert_eq!(crate::desk::run(&state, &mut memory, 1).refusal, refusal);
    }
}

#[test]
fn word_at_510_needs_two_pages() {
    let code = command(0x12, &[absolute(510), register(1)]);
    for (entry, alarm) in [(0, Some((9, 512))), (0x8000_0005, None)] {
        let mut desk = user();
        desk.entry(1, entry);
        desk.put(USER + 510, &[1, 2, 3, 4]);
        desk.code(&code);
        match alarm {
            Some(alarm) => assert_eq!(desk.alarmed(), alarm),
            None => {
                assert_eq!(desk.step(), Event::Plain);
                assert_eq!(desk.state.registers[1], 0x01020304);
            }
        }
    }
    let mut desk = user();
    desk.entry(0, 0);
    desk.state.registers[PC] = 512;
    desk.code(&code);
    assert_eq!(desk.alarmed(), (9, 510));
}

#[test]
fn trace_example() {
    let mut input = vec![0; 512];
    input.extend([0x10, 1, 0, 0, 0, 0, 2, 2, 0, 0, 0, 0, 0]);
    assert_eq!(trace(&input), "1 0000020D 80000000\n2 0000020E 80000000\nstop 0\n");
}

#[test]
fn trace_lengths() {
    assert_eq!(trace(&[]), "1 00000200 80000000\nstop 8\n");
    assert_eq!(trace(&vec![0; 65_537]), "1\n");
    assert_eq!(trace(&vec![0; 65_536]), "1 00000201 80000000\nstop 0\n");
    // JUMP to itself.
    let mut input = vec![0; 512];
    input.extend(command(0x70, &[absolute(512)]));
    assert!(trace(&input).ends_with("1000 00000200 80000000\nend\n"));
}
