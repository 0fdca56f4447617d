//! Number 21, pages without commands (request F-4): the lookup, and which bytes are fetched.

use super::*;
use crate::asm::*;
use crate::code::decode;
use crate::map::{lookup, Real, Reason, Virtual};
use crate::operand::Fields;

/// Entries of page 2 without commands: not writable, and writable.
pub const BOTH: [u32; 2] = [0xA000_0006, 0xE000_0006];
/// Where page 2 starts, and its frame.
pub const PAGE: u32 = 1024;
const REAL: u32 = USER + PAGE;

/// In user mode, page 2 with this entry.
pub fn with(entry: u32) -> Bench {
    let mut desk = user();
    desk.entry(2, entry);
    desk
}

/// The same, with a command at an address.
pub fn at(entry: u32, address: u32, code: &[u8]) -> Bench {
    let mut desk = with(entry);
    desk.state.registers[PC] = address;
    desk.code(code);
    desk
}

#[test]
fn number_21() {
    for entry in BOTH {
        for byte in 0..=255u8 {
            for address in [PAGE, PAGE + 9, PAGE + 511] {
                // Unknown bytes too, and HALT: nothing of the command is seen.
                let mut desk = at(entry, address, &[byte]);
                assert_eq!(desk.alarmed(), (2, address));
            }
        }
    }
    let mut desk = at(0xC000_0006, PAGE, &[0xFF]);
    assert_eq!(desk.alarmed(), (12, 0xFF));
}

#[test]
fn every_byte_of_every_operand() {
    for byte in (0..=255u8).filter(|byte| decode(*byte).is_some()) {
        let known = decode(byte).unwrap();
        let operands: Vec<Fields> = known.operands.iter().map(|_| absolute(2048)).collect();
        for before in 1..1 + 6 * operands.len() as u32 {
            let mut desk = at(BOTH[before as usize % 2], PAGE - before, &command(byte, &operands));
            desk.state.registers[SP] = 2048;
            // RESUME's mode comes before its operand. Saved R15 lies in the page before.
            assert_eq!(desk.alarmed(), if byte == 5 { (13, 5) } else { (2, PAGE) });
        }
        // A command that ends there is whole; the next one is refused.
        let mut desk = at(BOTH[0], PAGE - 1 - 6 * operands.len() as u32, &command(byte, &operands));
        desk.state.registers[SP] = 2048;
        if !matches!(byte, 0x00 | 0x03 | 0x05 | 0x58..=0x5F | 0x70..=0x7A) {
            assert_eq!(desk.step(), Event::Plain);
            assert_eq!(desk.alarmed(), (2, PAGE));
        }
    }
}

#[test]
fn what_follows_doesnt_matter() {
    // The command byte is refused though its operands lie in a good page.
    let mut desk = at(BOTH[1], PAGE + 511, &command(0x12, &[immediate(1), register(2)]));
    assert_eq!(desk.alarmed(), (2, PAGE + 511));
    // Only the first byte that can't be fetched counts: page 3 is absent.
    let mut desk = at(BOTH[1], PAGE + 511, &command(0x12, &[immediate(1), register(2)]));
    desk.entry(3, 0);
    assert_eq!(desk.alarmed(), (2, PAGE + 511));
    // A page without commands before a good one, and page 1 absent.
    let mut desk = at(BOTH[0], 511, &command(0x12, &[immediate(1), register(2)]));
    desk.entry(1, 0x6000_0005);
    assert_eq!(desk.alarmed(), (9, 512));
}

/// Operands in every form with an address whose bytes, and words, lie in page 2. R1 = 5, R2 = 3.
fn operands(desk: &mut Bench, size: u32) -> Vec<Fields> {
    desk.state.registers[1] = 5;
    desk.state.registers[2] = 3;
    desk.state.registers[3] = PAGE + 64 + size;
    desk.state.registers[4] = PAGE + 64;
    desk.word(REAL + 100, PAGE + 64);
    desk.word(REAL + 104, PAGE + 64 - 3 * size);
    vec![
        absolute(PAGE + 64),
        relative(PAGE + 59, 1),
        indexed(PAGE + 59 - 3 * size, 1, 2),
        indirect(PAGE + 95, 1),
        indirect_indexed(PAGE + 99, 1, 2),
        lowered(3),
        raised(4),
    ]
}

#[test]
fn values_are_read_there() {
    for entry in BOTH {
        for (k, size, value) in [(0, 1, 0xA1), (1, 2, 0xA1A2), (2, 4, 0xA1A2_A3A4)] {
            for i in 0..7 {
                let mut desk = with(entry);
                let operand = operands(&mut desk, size)[i];
                desk.word(REAL + 64, 0xA1A2_A3A4);
                desk.code(&command(0x10 + k, &[operand, register(9)]));
                assert_eq!(desk.step(), Event::Plain);
                assert_eq!(desk.state.registers[9], value);
            }
        }
        // Across the page's ends.
        for (address, value) in [(PAGE - 2, 0x0000_A1A2), (PAGE + 510, 0xA3A4_0000)] {
            let mut desk = with(entry);
            desk.put(REAL, &[0xA1, 0xA2]);
            desk.put(REAL + 510, &[0xA3, 0xA4]);
            desk.code(&command(0x12, &[absolute(address), register(9)]));
            assert_eq!(desk.step(), Event::Plain);
            assert_eq!(desk.state.registers[9], value);
        }
    }
}

#[test]
fn words_of_forms_5_and_6_are_read_there() {
    for entry in BOTH {
        for byte in [0x20, 0x70, 0x79] {
            for form in [indirect(PAGE + 8, 0), indirect_indexed(PAGE + 8, 0, 2), indirect(PAGE + 510, 0)] {
                let mut desk = with(entry);
                desk.state.registers[SP] = 3072;
                desk.word(REAL + 8, 2048);
                desk.word(REAL + 510, 2048);
                desk.code(&command(byte, &[form, register(9)]));
                assert_eq!(desk.step(), Event::Plain);
                let place = if byte == 0x20 { desk.state.registers[9] } else { desk.state.registers[PC] };
                assert_eq!(place, 2048);
            }
        }
    }
}

#[test]
fn results_are_written_there() {
    for (k, size) in [(0, 1), (1, 2), (2, 4)] {
        for i in 0..7 {
            // MOVE writes, ADD reads and writes.
            for byte in [0x10, 0x40] {
                let mut desk = with(BOTH[1]);
                let operand = operands(&mut desk, size)[i];
                desk.code(&command(byte + k, &[immediate(0x77), operand]));
                assert_eq!(desk.step(), Event::Plain);
                assert_eq!(desk.memory[(REAL + 64 + size) as usize - 1], 0x77);
                let mut desk = with(BOTH[0]);
                let operand = operands(&mut desk, size)[i];
                desk.code(&command(byte + k, &[immediate(0x77), operand]));
                assert_eq!(desk.alarmed(), (11, PAGE + 64));
            }
        }
    }
}

#[test]
fn the_stack_may_lie_there() {
    for entry in BOTH {
        let mut desk = with(entry);
        desk.state.registers[SP] = PAGE + 40;
        desk.word(REAL + 40, 3000);
        desk.code(&[0x7A]);
        assert_eq!(desk.step(), Event::Plain);
        assert_eq!((desk.state.registers[PC], desk.state.registers[SP]), (3000, PAGE + 44));
        let mut desk = with(entry);
        desk.state.registers[SP] = PAGE + 480;
        desk.put(REAL + 480, &[0x11; 60]);
        desk.code(&[2]);
        assert_eq!(desk.step(), Event::Plain);
        assert_eq!((desk.state.registers[13], desk.state.registers[SP]), (0x1111_1111, 0x1111_1115));
    }
    for (code, size) in [(vec![1], 60), (command(0x79, &[absolute(2048)]), 4)] {
        let mut desk = with(BOTH[1]);
        desk.state.registers[SP] = PAGE + 100;
        desk.code(&code);
        assert_eq!(desk.step(), Event::Plain);
        assert_eq!(desk.state.registers[SP], PAGE + 100 - size);
        let stored = if size == 4 { 7 } else { PAGE + 96 };
        assert_eq!(desk.get(REAL + 96), stored);
        let mut desk = with(BOTH[0]);
        desk.state.registers[SP] = PAGE + 100;
        desk.code(&code);
        assert_eq!(desk.alarmed(), (11, PAGE + 100 - size));
    }
}

#[test]
fn other_numbers_come_before() {
    // An absent entry's other bits mean nothing; five bits are forbidden; a frame past the memory.
    let mut list = vec![(0x2000_0006, 9), (0x7F00_0006, 9), (0xA000_0010, 10), (0xE0FF_FFFF, 10)];
    list.extend((24..29).map(|bit| (0xA000_0006 | 1 << bit, 10)));
    for (entry, number) in list {
        for entry in [entry, entry | 0x4000_0000] {
            let mut desk = at(entry, PAGE + 3, &[0x01]);
            assert_eq!(desk.alarmed(), (number, PAGE + 3));
            let mut desk = at(entry, PAGE - 8, &command(0x12, &[immediate(1), register(1)]));
            assert_eq!(desk.alarmed(), (number, PAGE));
            for operands in [[absolute(PAGE), register(1)], [register(1), absolute(PAGE)]] {
                let mut desk = with(entry);
                desk.code(&command(0x10, &operands));
                assert_eq!(desk.alarmed(), (number, PAGE));
            }
        }
    }
    // At and past the map length the entry isn't looked at.
    for length in [2, 1] {
        let mut desk = at(BOTH[1], PAGE + 5, &[0x01]);
        desk.state.map_length = length;
        assert_eq!(desk.alarmed(), (8, PAGE + 5));
    }
    let mut desk = at(BOTH[1], PAGE + 5, &[0x01]);
    desk.state.map_length = 3;
    assert_eq!(desk.alarmed(), (2, PAGE + 5));
}

#[test]
fn a_lookup_is_told_why() {
    let rows = [
        (0x8000_0006, [0, 0, 11]),
        (0xC000_0006, [0, 0, 0]),
        (0xA000_0006, [21, 0, 11]),
        (0xE000_0006, [21, 0, 0]),
        (0x6000_0006, [9, 9, 9]),
        (0xF000_0006, [10, 10, 10]),
        (0xE100_0006, [10, 10, 10]),
        (0xA000_0010, [10, 10, 10]),
    ];
    for (entry, numbers) in rows {
        let mut desk = with(entry);
        for (reason, number) in [Reason::Fetch, Reason::Read, Reason::Write].into_iter().zip(numbers) {
            let answer = if number == 0 { Ok(Real(REAL + 7)) } else { Err(number) };
            assert_eq!(lookup(&desk.state, &desk.memory, Virtual(PAGE + 7), reason), answer);
            desk.state.status ^= KERNEL;
            assert_eq!(lookup(&desk.state, &desk.memory, Virtual(PAGE + 7), reason), Ok(Real(PAGE + 7)));
            desk.state.status ^= KERNEL;
        }
    }
}

#[test]
fn kernel_mode_has_no_such_page() {
    for entry in BOTH {
        let code = command(0x12, &[immediate(5), register(1)]);
        for address in [PAGE, PAGE - 5, REAL, REAL + 512 - 9] {
            let mut desk = kernel();
            desk.entry(2, entry);
            desk.state.registers[PC] = address;
            desk.code(&code);
            assert_eq!(desk.step(), Event::Plain);
            assert_eq!(desk.state.registers[1], 5);
        }
    }
}

#[test]
fn it_is_the_entry_that_counts() {
    // Pages 2 and 3 name one frame; only page 2 is without commands.
    let code = command(0x12, &[immediate(5), register(1)]);
    let mut desk = with(BOTH[1]);
    desk.entry(3, 0x8000_0006);
    desk.put(REAL, &code);
    desk.state.registers[PC] = 1536;
    assert_eq!(desk.step(), Event::Plain);
    desk.state.registers[PC] = PAGE;
    assert_eq!(desk.alarmed(), (2, PAGE));
    // What is written through page 2 is fetched through page 3.
    let mut desk = with(BOTH[1]);
    desk.entry(3, 0x8000_0006);
    desk.put(REAL, &code);
    desk.code(&[command(0x10, &[immediate(8), absolute(PAGE + 6)]), command(0x70, &[absolute(1536)])].concat());
    for _ in 0..3 {
        assert_eq!(desk.step(), Event::Plain);
    }
    assert_eq!(desk.state.registers[1], 8);
}
