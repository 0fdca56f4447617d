//! Numbers 1 to 16; 21 is in `fetches.rs`.

use super::*;
use crate::asm::*;

#[test]
fn number_1() {
    for length in [0, 1, 511, 513, 16_777_217, 16_777_728] {
        let mut desk = kernel();
        desk.memory = vec![0; length];
        assert_eq!(desk.refused(), 1);
        let made = desk::fresh(length as u64, 0, 256, 9);
        assert_eq!((made.refusal, made.state), (1, State::zero(1)));
    }
    let mut desk = kernel();
    desk.memory = vec![0; 16_777_216];
    assert_eq!(desk.step(), Event::Stop(0));
}

#[test]
fn number_2() {
    for (block, refusal) in [(7936, 0), (7937, 2), (7940, 2), (2, 2), (0xFFFF_FFFC, 2)] {
        let mut desk = kernel();
        desk.state.system_block = block;
        let made = desk::fresh(8192, block, 256, 9);
        assert_eq!(made.refusal, refusal);
        if refusal == 0 {
            assert_eq!(desk.step(), Event::Stop(0));
        } else {
            assert_eq!(desk.refused(), 2);
            assert_eq!(made.state, State::zero(2));
        }
    }
}

#[test]
fn number_3() {
    for (block, refusal) in [(8112, 0), (8116, 3), (1, 3), (0xFFFF_FFFC, 3)] {
        let mut desk = kernel();
        desk.state.control_block = block;
        let made = desk::fresh(8192, 0, block, 9);
        assert_eq!(made.refusal, refusal);
        if refusal == 0 {
            assert_eq!(desk.step(), Event::Stop(0));
        } else {
            assert_eq!(desk.refused(), 3);
            assert_eq!(made.state, State::zero(3));
        }
    }
}

#[test]
fn number_4() {
    let cases = [
        (8192, 0, 0),
        (8196, 0, 4),
        (2, 0, 4),
        (8188, 1, 0),
        (8188, 2, 4),
        (0, 2048, 0),
        (0, 2049, 4),
        (0, 0x4000_0000, 4),
        (0xFFFF_FFFC, 1, 4),
    ];
    for (base, length, refusal) in cases {
        let mut desk = kernel();
        desk.state.map_base = base;
        desk.state.map_length = length;
        if refusal == 0 {
            assert_eq!(desk.step(), Event::Stop(0));
        } else {
            assert_eq!(desk.refused(), 4);
        }
    }
}

#[test]
fn number_5() {
    for bit in 0..32 {
        let defined = bit < 8 || bit == 31;
        let mut desk = kernel();
        desk.state.status |= 1 << bit;
        assert_eq!(desk::request(&desk.state, 3).refusal, if defined { 0 } else { 5 });
        assert_eq!(desk::request(&desk.state, 0).refusal, if defined { 6 } else { 5 });
        if defined {
            assert_eq!(desk.step(), Event::Stop(0));
        } else {
            assert_eq!(desk.refused(), 5);
        }
    }
    let mut desk = kernel();
    desk.state.pending = 3;
    assert_eq!(desk.refused(), 5);
    let answer = desk::request(&desk.state, 16);
    assert_eq!((answer.refusal, answer.state), (5, desk.state));
}

#[test]
fn number_6() {
    let mut desk = kernel();
    for level in [0, 16, 17, 31, 32, 0x8000_0001, 0xFFFF_FFFF] {
        let answer = desk::request(&desk.state, level);
        assert_eq!((answer.refusal, answer.state), (6, desk.state));
    }
    desk.state.mark = Mark::Stopped(9);
    desk.state.map_base = 1;
    for level in 1..16 {
        let answer = desk::request(&desk.state, level);
        assert_eq!(answer.refusal, 0);
        assert_eq!(answer.state, State { pending: desk.state.pending | 1 << level, ..desk.state });
        desk.state = answer.state;
    }
    assert_eq!(desk.state.pending, 0xFFFE);
}

#[test]
fn number_7() {
    let mut desk = kernel();
    assert_eq!(desk::run(&desk.state, &mut desk.memory, 0).refusal, 0);
    desk.state.mark = Mark::Stopped(77);
    assert_eq!(desk.refused(), 7);
    assert_eq!(desk::run(&desk.state, &mut desk.memory, 0).refusal, 7);
    desk.state.status = 0x100;
    assert_eq!(desk.refused(), 5);
    desk.state.map_base = 3;
    assert_eq!(desk.refused(), 4);
}

#[test]
fn numbers_8_to_11() {
    let reads = [(8, None), (9, Some(0x7FFF_FFFF)), (10, Some(0x8100_0006)), (10, Some(0x8000_0010))];
    for (number, entry) in reads.into_iter().chain([(11, Some(0x8000_0006))]) {
        let mut desk = user();
        match entry {
            Some(entry) => desk.entry(2, entry),
            None => desk.state.map_length = 2,
        }
        desk.code(&command(0x10, &[immediate(5), absolute(1024 + 9)]));
        assert_eq!(desk.alarmed(), (number, 1033));
    }
    for bit in 24..30 {
        let mut desk = user();
        desk.entry(2, 0xC000_0006 | 1 << bit);
        desk.code(&command(0x10, &[absolute(1025), register(1)]));
        if bit < 29 {
            assert_eq!(desk.alarmed(), (10, 1025));
        } else {
            assert_eq!(desk.step(), Event::Plain);
        }
    }
    let mut desk = kernel();
    desk.code(&command(0x12, &[absolute(8189), register(1)]));
    assert_eq!(desk.stopped(), 8);
}

#[test]
fn number_12() {
    let known: Vec<u8> = (0..=255).filter(|byte| crate::code::decode(*byte).is_some()).collect();
    assert_eq!(known.len(), 5 + 12 + 2 + 7 * 6 + 2 + 3 + 11 + 4 * 4 + 2 * 2);
    for byte in (0..=255u8).filter(|byte| !known.contains(byte)) {
        let mut desk = user();
        desk.code(&[byte]);
        assert_eq!(desk.alarmed(), (12, u32::from(byte)));
        let mut desk = kernel();
        desk.code(&[byte]);
        assert_eq!(desk.stopped(), 12);
    }
}

#[test]
fn number_13() {
    for byte in [0, 5] {
        let mut desk = user();
        // The mode comes before the operand, whose page is absent.
        desk.state.registers[PC] = 511;
        desk.entry(1, 0);
        desk.code(&[byte]);
        assert_eq!(desk.alarmed(), (13, u32::from(byte)));
    }
    let mut desk = kernel();
    desk.code(&command(3, &[immediate(1)]));
    assert_eq!(desk.stopped(), 13);
}

#[test]
fn number_14() {
    let mut desk = user();
    desk.code(&command(0x12, &[immediate(1), immediate(1)]));
    assert_eq!(desk.alarmed(), (14, 2));
    let mut desk = kernel();
    desk.code(&command(0x12, &[immediate(1), immediate(1)]));
    assert_eq!(desk.stopped(), 14);
}

#[test]
fn number_14_by_resume() {
    // Status, map base, map length, block address, good or not.
    let cases = [
        (0xFF, 4, 2047, 1024, true),
        (0, 8192, 0, 8112, true),
        (0x100, 4, 1, 1024, false),
        (KERNEL, 4, 1, 1024, false),
        (0, 2, 0, 1024, false),
        (0, 4, 2048, 1024, false),
        (0, 4, 1, 1026, false),
        (0, 4, 1, 8116, false),
        (0, 4, 1, 8192, false),
        (0, 4, 1, 0xFFFF_FFF0, false),
    ];
    for (status, map_base, map_length, block, good) in cases {
        let mut desk = kernel();
        desk.memory.resize(8192 + 512, 0);
        let top = if block < 8192 { block } else { 1024 };
        for i in 0..16 {
            desk.word(top + 4 * i, 0x1000 + i);
        }
        desk.word(top + 64, status);
        desk.word(top + 68, 0x5555_5555);
        desk.word(top + 72, map_base);
        desk.word(top + 76, map_length);
        desk.memory.truncate(8192);
        desk.state.pending = 0x40;
        desk.code(&command(5, &[absolute(block)]));
        if good {
            assert_eq!(desk.step(), Event::Plain);
            let expected = State {
                registers: std::array::from_fn(|i| 0x1000 + i as u32),
                status,
                pending: 0x40,
                map_base,
                map_length,
                system_block: 0,
                control_block: block,
                mark: Mark::Running,
            };
            assert_eq!(desk.state, expected);
        } else {
            assert_eq!(desk.stopped(), 14);
        }
    }
}

#[test]
fn number_15() {
    for byte in [0x58, 0x59, 0x5A] {
        let mut desk = user();
        desk.code(&command(byte, &[register(1), register(2)]));
        assert_eq!(desk.alarmed(), (15, 0));
        let mut desk = kernel();
        desk.code(&command(byte + 4, &[register(1), register(2), register(3)]));
        assert_eq!(desk.stopped(), 15);
    }
}

#[test]
fn number_16() {
    for status in [0, 0xFF, 0x8000_0100, 0xC000_0000] {
        // By an alarm, a system call and an interrupt.
        for (cause, code, pending) in
            [(12u32, vec![0xFF], 0u16), (1, command(3, &[raised(4)]), 0), (16 + 9, vec![0], 0x0202)]
        {
            let mut desk = user();
            desk.state.pending = pending;
            desk.word(8 * cause + 4, status);
            desk.code(&code);
            assert_eq!(desk.stopped(), 16);
            assert_eq!(desk.state.pending, pending);
        }
    }
    for status in [0x8000_0000, 0x8000_00FF] {
        let mut desk = user();
        desk.word(8 * 12 + 4, status);
        desk.code(&[0xFF]);
        assert!(matches!(desk.step(), Event::Entry { cause: 12, .. }));
        assert_eq!(desk.state.status, status);
    }
}

#[test]
fn system_call_and_interrupt() {
    let mut desk = user();
    desk.state.registers[4] = 100;
    desk.state.pending = 0x0008;
    desk.state.status = 0x30 | Z;
    desk.put(USER + 100, &[0xAA, 0xBB, 0xCC, 0xDD]);
    desk.code(&command(3, &[raised(4)]));
    assert_eq!(desk.entered(), (1, 0xAABB_CCDD, 7));
    assert_eq!((desk.get(CONTROL + 16), desk.get(CONTROL + 64)), (104, 0x30 | Z));
    // Highest pending level above the status level; equal is not above.
    let mut desk = user();
    desk.state.status = 0x50;
    desk.state.pending = 1 << 5;
    desk.code(&[0x70, 0]);
    assert_eq!(desk.step(), Event::Plain);
    for level in [6, 9, 15] {
        desk.state = desk::request(&desk.state, level).state;
    }
    desk.state.registers[PC] = 0xFFFF_FFFF;
    assert_eq!(desk.entered(), (31, 15, 0xFFFF_FFFF));
    assert_eq!(desk.state.pending, 1 << 5 | 1 << 6 | 1 << 9);
    // Not in kernel mode.
    assert_eq!(desk.step(), Event::Stop(0));
}

#[test]
fn halt_and_run_counts() {
    let mut desk = kernel();
    desk.state.status |= FLAGS;
    desk.code(&[command(0x70, &[absolute(600)])].concat());
    assert_eq!(desk::run(&desk.state, &mut desk.memory, 0).count, 0);
    let ran = desk::run(&desk.state, &mut desk.memory, 10);
    assert_eq!((ran.refusal, ran.count, ran.state.mark), (0, 2, Mark::Stopped(0)));
    assert_eq!((ran.state.registers[PC], ran.state.status), (601, KERNEL | FLAGS));
    // A run goes on after an entry; the entry counts.
    let mut desk = user();
    desk.code(&[0xFF]);
    let ran = desk::run(&desk.state, &mut desk.memory, 10);
    assert_eq!((ran.count, ran.state.mark, ran.state.registers[PC]), (2, Mark::Stopped(0), 0x661));
}

#[test]
fn overlapping_blocks_read_the_entry_first() {
    let mut desk = user();
    desk.state.control_block = 64;
    desk.code(&[0xFF]);
    assert!(matches!(desk.step(), Event::Entry { cause: 12, .. }));
    assert_eq!((desk.state.registers[PC], desk.state.status), (0x660, KERNEL));
}
