//! Forms, roles, sizes, flags.

use super::*;
use crate::asm::*;
use crate::operand::Fields;

/// The source of a MOVE W into R9, with R1 = 1024, R2 = 3.
fn moved(byte: u8, source: Fields) -> (u32, State) {
    let mut desk = kernel();
    desk.state.registers[1] = 1024;
    desk.state.registers[2] = 3;
    for i in 0..64u32 {
        desk.word(1024 + 4 * i, 1024 + 4 * i);
    }
    desk.code(&command(byte, &[source, register(9)])).step();
    (desk.state.registers[9], desk.state)
}

#[test]
fn every_form_as_a_word_source() {
    assert_eq!(moved(0x12, absolute(1028)).0, 1028);
    assert_eq!(moved(0x12, immediate(0x8000_0001)).0, 0x8000_0001);
    assert_eq!(moved(0x12, register(1)).0, 1024);
    assert_eq!(moved(0x12, register(15)).0, 512 + 7);
    assert_eq!(moved(0x12, relative(8, 1)).0, 1032);
    assert_eq!(moved(0x20, relative(0xFFFF_FC08, 1)).0, 8);
    assert_eq!(moved(0x20, indexed(0xFFFF_FFFC, 1, 2)).0, 1032);
    assert_eq!(moved(0x12, indexed(4, 1, 2)).0, 1040);
    assert_eq!(moved(0x12, indirect(12, 1)).0, 1036);
    assert_eq!(moved(0x12, indirect_indexed(12, 1, 2)).0, 1048);
    let (value, state) = moved(0x12, raised(1));
    assert_eq!((value, state.registers[1]), (1024, 1028));
    let (value, state) = moved(0x12, lowered(1));
    assert_eq!((value, state.registers[1]), (0, 1020));
    // R15 inside an operand is the address after its six bytes.
    assert_eq!(moved(0x12, relative(512 - 7, 15)).0, 1024);
    assert_eq!(moved(0x12, indexed(1024u32.wrapping_sub(519 * 4), 0, 15)).0, 1024);
}

#[test]
fn index_and_steps_use_the_length() {
    for (byte, size) in [(0x10, 1), (0x11, 2), (0x12, 4)] {
        assert_eq!(moved(byte, raised(1)).1.registers[1], 1024 + size);
        assert_eq!(moved(byte, lowered(1)).1.registers[1], 1024 - size);
    }
    // B at 1024 + 3 is 00; H at 1024 + 6 is 0404h; the word at 1028 + 3 × 2.
    assert_eq!(moved(0x10, indexed(0, 1, 2)).0 & 0xFF, 0x00);
    assert_eq!(moved(0x11, indexed(0, 1, 2)).0, 0x0404);
    assert_eq!(moved(0x11, indirect_indexed(4, 1, 2)).0, 0x0408);
}

#[test]
fn addresses_use_length_four() {
    assert_eq!(moved(0x20, indexed(5, 1, 2)).0, 1024 + 5 + 12);
    assert_eq!(moved(0x20, indirect_indexed(4, 1, 2)).0, 1028 + 12);
    assert_eq!(moved(0x20, raised(1)).0, 1024);
    assert_eq!(moved(0x20, raised(1)).1.registers[1], 1028);
    assert_eq!(moved(0x20, lowered(1)).0, 1020);
    assert_eq!(moved(0x20, relative(0xFFFF_FFFF, 1)).0, 1023);
    // No place is read: an address past the memory is fine.
    let (value, state) = moved(0x20, absolute(0xFFFF_FFFF));
    assert_eq!((value, state.status & FLAGS), (0xFFFF_FFFF, N));
}

#[test]
fn broken_form_rules() {
    let f = |form, x, y, z| Fields { form, x, y, z };
    // As the source of MOVE B.
    let broken = [
        f(0, 1, 0, 1024),
        f(0, 0, 1, 1024),
        f(1, 1, 0, 3),
        f(1, 0, 1, 3),
        f(1, 0, 0, 0x100),
        f(2, 1, 1, 0),
        f(2, 1, 0, 1),
        f(3, 1, 1, 0),
        f(5, 1, 1, 0),
        f(7, 1, 1, 0),
        f(7, 1, 0, 1),
        f(7, 15, 0, 0),
        f(8, 1, 1, 0),
        f(8, 1, 0, 1),
        f(8, 15, 0, 0),
        f(9, 0, 0, 0),
        f(255, 0, 0, 0),
    ];
    for fields in broken {
        let mut desk = user();
        desk.state.registers[1] = 1024;
        desk.code(&command(0x10, &[fields, register(3)]));
        assert_eq!(desk.alarmed(), (14, 1), "{:?}", fields);
        let mut desk = user();
        desk.state.registers[1] = 1024;
        desk.code(&command(0x44, &[immediate(1), immediate(2), fields]));
        assert_eq!(desk.alarmed(), (14, 3), "{:?}", fields);
    }
    // Form 1 of a length.
    for (byte, z, good) in [(0x10, 0xFF, true), (0x11, 0xFFFF, true), (0x11, 0x1_0000, false)] {
        let mut desk = user();
        desk.code(&command(byte, &[immediate(z), register(3)]));
        assert_eq!(desk.step() == Event::Plain, good);
    }
    // Forms 1 and 2 have no address.
    for byte in (0x70..=0x79).chain([0x20]) {
        for fields in [immediate(64), register(3)] {
            let mut desk = user();
            desk.state.registers[SP] = 1024;
            desk.code(&command(byte, &[fields, register(3)]));
            assert_eq!(desk.alarmed(), (14, 1));
        }
    }
    // Form 1 is no destination, form 2 is one.
    for byte in [0x10u8, 0x14, 0x18, 0x1C, 0x28, 0x30, 0x38, 0x40, 0x48, 0x50, 0x58, 0x20, 0x21] {
        let mut desk = user();
        let first = if byte == 0x20 { absolute(7) } else { immediate(1) };
        let place = if byte == 0x14 { 1 } else { 2 };
        desk.code(&command(byte, &[first, immediate(1)][2 - place..]));
        assert_eq!(desk.alarmed(), (14, place as u32));
    }
}

#[test]
fn steps_are_seen_by_later_operands() {
    let mut desk = kernel();
    desk.state.registers[1] = 1024;
    desk.word(1024, 5);
    desk.word(1028, 7);
    // ADD W !R1+,!R1+,R2
    desk.code(&command(0x46, &[raised(1), raised(1), register(2)])).step();
    assert_eq!((desk.state.registers[1], desk.state.registers[2]), (1032, 12));
    // ADD W -!R1,R1: R1 is lowered before it is read.
    desk.code(&command(0x42, &[lowered(1), register(1)])).step();
    assert_eq!(desk.state.registers[1], 1028 + 7);
    // MOVE W R1,-!R1 stores R1 as it was.
    desk.state.registers[1] = 1032;
    desk.code(&command(0x12, &[register(1), lowered(1)])).step();
    assert_eq!((desk.get(1028), desk.state.registers[1]), (1032, 1028));
    // MOVE B !R1+,R1 writes into the raised R1.
    desk.state.registers[1] = 1279;
    desk.memory[1279] = 0x99;
    desk.code(&command(0x10, &[raised(1), register(1)])).step();
    assert_eq!(desk.state.registers[1], 0x0599);
    // Read and written: stepped once.
    desk.state.registers[1] = 1024;
    desk.code(&command(0x42, &[immediate(1), raised(1)])).step();
    assert_eq!((desk.get(1024), desk.get(1028), desk.state.registers[1]), (6, 1032, 1028));
}

#[test]
fn r15_as_a_destination() {
    let mut desk = kernel();
    desk.code(&command(0x42, &[immediate(100), register(15)])).step();
    assert_eq!(desk.state.registers[PC], 512 + 13 + 100);
    // The rest kept is that of the next command's address.
    let mut desk = kernel();
    desk.state.registers[PC] = 0x5FA;
    desk.code(&command(0x10, &[immediate(0x21), register(15)])).step();
    assert_eq!(desk.state.registers[PC], 0x621);
    let mut desk = kernel();
    desk.code(&command(0x14, &[register(15)])).step();
    assert_eq!(desk.state.registers[PC], 0x200);
}

#[test]
fn jumps() {
    for flags in 0..16u32 {
        let (n, z, v, c) = (flags & N != 0, flags & Z != 0, flags & V != 0, flags & C != 0);
        let jumps = [true, z, !z, !n && !z, !n, n, n || z, v, c];
        for (i, taken) in jumps.into_iter().enumerate() {
            let mut desk = kernel();
            desk.state.status |= flags;
            desk.state.registers[3] = 1024;
            desk.code(&command(0x70 + i as u8, &[raised(3)])).step();
            assert_eq!(desk.state.registers[PC], if taken { 1024 } else { 519 });
            // The operand's step is made in both cases; flags are kept.
            assert_eq!((desk.state.registers[3], desk.flags()), (1028, flags));
        }
    }
    let mut desk = user();
    desk.state.status |= Z;
    desk.code(&command(0x72, &[indirect(8 * 512, 0)]));
    assert_eq!(desk.alarmed(), (8, 4096));
}

#[test]
fn call_and_ret() {
    let mut desk = kernel();
    desk.state.registers[SP] = 1024;
    desk.code(&command(0x79, &[relative(0, 14)]));
    desk.step();
    assert_eq!((desk.state.registers[PC], desk.state.registers[SP], desk.get(1020)), (1024, 1020, 519));
    desk.code(&[0x7A]).step();
    assert_eq!((desk.state.registers[PC], desk.state.registers[SP]), (519, 1024));
    // The operand's step comes before the lowering.
    desk.code(&command(0x79, &[raised(14)])).step();
    assert_eq!((desk.state.registers[PC], desk.state.registers[SP], desk.get(1024)), (1024, 1024, 526));
    desk.state.registers[PC] = 600;
    desk.code(&command(0x79, &[lowered(14)])).step();
    assert_eq!((desk.state.registers[PC], desk.state.registers[SP], desk.get(1016)), (1020, 1016, 607));
    // Wrapping: the first byte looked up lies at the new SP.
    let mut desk = user();
    desk.state.registers[SP] = 2;
    desk.code(&command(0x79, &[absolute(0)]));
    assert_eq!(desk.alarmed(), (8, 0xFFFF_FFFE));
}

/// Two immediate operands into R3.
fn flags_of(byte: u8, first: u32, second: u32) -> (u32, u32) {
    let mut desk = kernel();
    desk.state.status |= V | C;
    desk.code(&command(byte, &[immediate(first), immediate(second), register(3)])).step();
    (desk.state.registers[3], desk.flags())
}

#[test]
fn flags() {
    assert_eq!(flags_of(0x44, 0xFF, 1), (0, Z | C));
    assert_eq!(flags_of(0x44, 0x80, 0x80), (0, Z | V | C));
    assert_eq!(flags_of(0x45, 0x7FFF, 1), (0x8000, N | V));
    assert_eq!(flags_of(0x46, 0x8000_0000, 0xFFFF_FFFF), (0x7FFF_FFFF, V | C));
    assert_eq!(flags_of(0x4C, 0x80, 0x7F), (0xFF, N | V | C));
    assert_eq!(flags_of(0x4C, 1, 0x80), (0x7F, V));
    assert_eq!(flags_of(0x4E, 5, 5), (0, Z));
    assert_eq!(flags_of(0x54, 0x10, 0x10), (0, Z | V));
    assert_eq!(flags_of(0x54, 0xFF, 0xFF), (1, 0));
    assert_eq!(flags_of(0x56, 0x8000_0000, 0xFFFF_FFFF), (0x8000_0000, N | V));
    assert_eq!(flags_of(0x5D, 0xFFFF, 0x8000), (0x8000, N | V));
    assert_eq!(flags_of(0x5C, 0xFE, 7), (0xFD, N));
    assert_eq!(flags_of(0x2C, 0x81, 0x18), (0x99, N));
    assert_eq!(flags_of(0x34, 0x0F, 0xFF), (0xF0, N));
    assert_eq!(flags_of(0x3D, 0x1234, 0x1234), (0, Z));
    assert_eq!(flags_of(0x60, 1, 0x4000_0000), (0x8000_0000, N | V));
    assert_eq!(flags_of(0x60, 2, 0x4000_0000), (0, Z | V));
    assert_eq!(flags_of(0x60, 1, 0x8000_0000), (0, Z | V));
    assert_eq!(flags_of(0x60, 0, 0x8000_0000), (0x8000_0000, N));
    assert_eq!(flags_of(0x60, 0x7FFF_FFFF, 0xFFFF_FFFF), (0, Z | V));
    assert_eq!(flags_of(0x60, 0x8000_0000, 0x7FFF_FFFF), (0, Z));
    assert_eq!(flags_of(0x60, 0xFFFF_FFFF, 0x8000_0001), (0xC000_0000, N));
    assert_eq!(flags_of(0x61, 0xFFFF_FFFF, 1), (0x8000_0000, N));
    assert_eq!(flags_of(0x61, 0x8000_0000, 6), (6, 0));
}

#[test]
fn flags_of_two_operands() {
    let two = |byte: u8, first: u32| {
        let mut desk = kernel();
        desk.state.status |= V | C;
        desk.state.registers[3] = 0xAAAA_AAAA;
        desk.code(&command(byte, &[immediate(first), register(3)])).step();
        (desk.state.registers[3], desk.flags())
    };
    assert_eq!(two(0x18, 0x80), (0xAAAA_AA80, N | V | C));
    assert_eq!(two(0x18, 0), (0xAAAA_AA00, Z));
    assert_eq!(two(0x19, 1), (0xAAAA_FFFF, N | C));
    assert_eq!(two(0x1C, 0xFF), (0xAAAA_AA00, Z));
    assert_eq!(two(0x1E, 0), (0xFFFF_FFFF, N));
    assert_eq!(two(0x11, 0x8000), (0xAAAA_8000, N));
    assert_eq!(two(0x21, 0x7F), (0x7F, 0));
    assert_eq!(two(0x64, 0x7F), (0xAAAA_AAAA, 0));
    assert_eq!(two(0x64, 0xAA), (0xAAAA_AAAA, Z));
    assert_eq!(two(0x66, 0x8000_0000), (0xAAAA_AAAA, N));
}
