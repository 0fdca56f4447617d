//! The numbers of the crate: those of the C header, which embed/c/constants.c holds against the calls, and what the
//! calls do with them.

use midesk::{load, numbers, Desk, Event, Refusal, STATE_BYTES, VERSION};
use std::collections::BTreeSet;

const HEADER: &str = include_str!("../../include/midesk.h");
const NUMBERS: &str = include_str!("../src/numbers.rs");

/// The number that the header gives a name.
fn header(name: &str) -> u64 {
    let start = format!("#define {name} ");
    let line = HEADER.lines().find_map(|line| line.strip_prefix(&start)).unwrap_or_else(|| panic!("no {name}"));
    let number = line.split_whitespace().next().unwrap().trim_end_matches('u');
    match number.strip_prefix("0x") {
        Some(digits) => u64::from_str_radix(digits, 16).unwrap(),
        None => number.parse().unwrap(),
    }
}

#[test]
fn constants_are_the_headers() {
    use numbers::*;
    let table: [(&str, u64, &str); 34] = [
        ("SYSTEM_CALL", SYSTEM_CALL.into(), "MIDESK_CAUSE_SYSTEM_CALL"),
        ("ADDRESS", ADDRESS.into(), "MIDESK_ALARM_ADDRESS"),
        ("ABSENT", ABSENT.into(), "MIDESK_ALARM_ABSENT"),
        ("MAP_ENTRY", MAP_ENTRY.into(), "MIDESK_ALARM_MAP_ENTRY"),
        ("READ_ONLY", READ_ONLY.into(), "MIDESK_ALARM_READ_ONLY"),
        ("COMMAND", COMMAND.into(), "MIDESK_ALARM_COMMAND"),
        ("MODE", MODE.into(), "MIDESK_ALARM_MODE"),
        ("OPERAND", OPERAND.into(), "MIDESK_ALARM_OPERAND"),
        ("DIVIDE", DIVIDE.into(), "MIDESK_ALARM_DIVIDE"),
        ("NO_FETCH", NO_FETCH.into(), "MIDESK_CAUSE_NO_FETCH"),
        ("HALT", HALT.into(), "MIDESK_STOP_HALT"),
        ("SYSTEM_ENTRY", SYSTEM_ENTRY.into(), "MIDESK_STOP_SYSTEM_ENTRY"),
        ("KERNEL", KERNEL.into(), "MIDESK_KERNEL"),
        ("LEVEL", LEVEL.into(), "MIDESK_LEVEL"),
        ("N", N.into(), "MIDESK_N"),
        ("Z", Z.into(), "MIDESK_Z"),
        ("V", V.into(), "MIDESK_V"),
        ("C", C.into(), "MIDESK_C"),
        ("CONTROL_STATUS", CONTROL_STATUS as u64, "MIDESK_CONTROL_STATUS"),
        ("CONTROL_ARGUMENT", CONTROL_ARGUMENT as u64, "MIDESK_CONTROL_ARGUMENT"),
        ("CONTROL_MAP_BASE", CONTROL_MAP_BASE as u64, "MIDESK_CONTROL_MAP_BASE"),
        ("CONTROL_MAP_LENGTH", CONTROL_MAP_LENGTH as u64, "MIDESK_CONTROL_MAP_LENGTH"),
        ("MAP_PRESENT", MAP_PRESENT.into(), "MIDESK_MAP_PRESENT"),
        ("MAP_WRITABLE", MAP_WRITABLE.into(), "MIDESK_MAP_WRITABLE"),
        ("MAP_NO_FETCH", MAP_NO_FETCH.into(), "MIDESK_MAP_NO_FETCH"),
        ("MAP_FRAME", MAP_FRAME.into(), "MIDESK_MAP_FRAME"),
        ("LIST_END", LIST_END.into(), "MIDESK_LIST_END"),
        ("LIST_MOVE", LIST_MOVE.into(), "MIDESK_LIST_MOVE"),
        ("LIST_BYTE", LIST_BYTE.into(), "MIDESK_LIST_BYTE"),
        ("LIST_FOUR", LIST_FOUR.into(), "MIDESK_LIST_FOUR"),
        ("LIST_COPIES", LIST_COPIES.into(), "MIDESK_LIST_COPIES"),
        ("LIST_PIECES", LIST_PIECES as u64, "MIDESK_LIST_PIECES"),
        ("MAX_BREAKPOINTS", MAX_BREAKPOINTS as u64, "MIDESK_MAX_BREAKPOINTS"),
        ("STATE_BYTES", STATE_BYTES as u64, "MIDESK_STATE_BYTES"),
    ];
    for (name, value, in_header) in table {
        assert_eq!(value, header(in_header), "{name}");
        // 21 is an alarm's number, but as a cause the interrupt's of level 5: no constant has it.
        assert_ne!(value, interrupt(5).into(), "{name}");
    }
    // No constant of the module is left out.
    let listed: BTreeSet<&str> = table.iter().map(|row| row.0).filter(|name| *name != "STATE_BYTES").collect();
    let public = NUMBERS.lines().filter_map(|line| line.strip_prefix("pub const ")?.split_once(": "));
    assert_eq!(listed, public.map(|(name, _)| name).filter(|name| !name.contains(' ')).collect());
}

#[test]
fn refusals_are_the_headers() {
    use Refusal::*;
    let table = [
        (Length, "LENGTH"),
        (SystemBlock, "SYSTEM_BLOCK"),
        (ControlBlock, "CONTROL_BLOCK"),
        (Map, "MAP"),
        (Status, "STATUS"),
        (Level, "LEVEL"),
        (Stopped, "STOPPED"),
        (Malformed, "MALFORMED"),
        (Pieces, "PIECES"),
        (Outside, "OUTSIDE"),
        (Breakpoints, "BREAKPOINTS"),
        (Scratch, "SCRATCH"),
        (Clash, "CLASH"),
    ];
    for (refusal, name) in table {
        assert_eq!(u64::from(refusal.number()), header(&format!("MIDESK_REFUSED_{name}")), "{refusal:?}");
    }
    // No refusal of the header is left out.
    let defined = HEADER.lines().filter_map(|line| line.strip_prefix("#define MIDESK_REFUSED_")?.split_once(' '));
    assert_eq!(defined.map(|(name, _)| name).collect::<BTreeSet<_>>(), table.map(|row| row.1).into());
}

#[test]
fn versions_agree() {
    let [major, minor, patch] = ["MAJOR", "MINOR", "PATCH"].map(|part| header(&format!("MIDESK_VERSION_{part}")));
    assert_eq!(env!("CARGO_PKG_VERSION"), format!("{major}.{minor}.{patch}"));
    assert_eq!(u64::from(VERSION), 65536 * major + 256 * minor + patch);
    assert_eq!(midesk::version(), VERSION);
}

fn put(memory: &mut [u8], at: usize, word: u32) {
    memory[at..at + 4].copy_from_slice(&word.to_be_bytes());
}

/// ADD B x,y,R0 in kernel mode: the status after it.
fn status_of_sum(x: u8, y: u8) -> u32 {
    let mut memory = [0; 1024];
    memory[512..531].copy_from_slice(&[0x44, 1, 0, 0, 0, 0, x, 1, 0, 0, 0, 0, y, 2, 0, 0, 0, 0, 0]);
    let mut desk = Desk::fresh(&memory, 0, 256, 512).unwrap();
    assert_eq!(desk.step(&mut memory), Ok(Event::Done));
    desk.status()
}

#[test]
fn flags_are_those_of_sums() {
    use numbers::{C, KERNEL, N, V, Z};
    assert_eq!(status_of_sum(1, 1), KERNEL);
    assert_eq!(status_of_sum(0x80, 0), KERNEL | N);
    assert_eq!(status_of_sum(0, 0), KERNEL | Z);
    assert_eq!(status_of_sum(0x7F, 1), KERNEL | N | V);
    assert_eq!(status_of_sum(0xFF, 2), KERNEL | C);
}

/// A desk in user mode whose page 0 is frame 1, which holds this code, and whose page 1 has this entry. Each entry of
/// the system block leads to an R15 and flags of its own.
fn user(code: &[u8], entry: u32) -> (Desk, Vec<u8>) {
    let mut memory = vec![0; 2048];
    for cause in 0..32 {
        put(&mut memory, numbers::system_pc(cause), 0x5152_5300 + cause);
        put(&mut memory, numbers::system_status(cause), numbers::KERNEL | (cause % 16));
    }
    put(&mut memory, 336, numbers::MAP_PRESENT | 1);
    put(&mut memory, 340, entry);
    memory[512..512 + code.len()].copy_from_slice(code);
    let mut desk = Desk::fresh(&memory, 0, 256, 0).unwrap();
    desk.set_status(0);
    desk.set_map(336, 2);
    (desk, memory)
}

#[test]
fn levels_above_the_own_are_entered() {
    for own in 0..16 {
        for level in 1..16 {
            // A jump to itself.
            let (mut desk, mut memory) = user(&[0x70, 0, 0, 0, 0, 0, 0], 0);
            desk.set_status(own * (numbers::LEVEL / 15));
            assert_eq!((desk.level(), desk.request(level)), (own, Ok(())));
            let event = desk.step(&mut memory);
            if level <= own {
                assert_eq!(event, Ok(Event::Done));
                continue;
            }
            let cause = numbers::interrupt(level);
            assert_eq!(event, Ok(Event::Entered(cause)));
            assert_eq!((desk.register(15), desk.status()), (0x5152_5300 + cause, numbers::KERNEL | (cause % 16)));
            let argument = 256 + numbers::CONTROL_ARGUMENT;
            assert_eq!(memory[argument..argument + 4], level.to_be_bytes());
        }
    }
}

#[test]
fn entries_of_the_map_allow_what_they_say() {
    use numbers::{ABSENT, MAP_ENTRY, MAP_FRAME, MAP_NO_FETCH, MAP_PRESENT, MAP_WRITABLE, NO_FETCH, READ_ONLY};
    // MOVE B from 205h to R0, and the other way.
    let load = |entry| {
        let (mut desk, mut memory) = user(&[0x10, 0, 0, 0, 0, 2, 5, 2, 0, 0, 0, 0, 0], entry);
        memory[1024 + 5] = 0x5A;
        (desk.step(&mut memory).unwrap(), desk.register(0))
    };
    let store = |entry| {
        let (mut desk, mut memory) = user(&[0x10, 2, 0, 0, 0, 0, 0, 0, 0, 0, 0, 2, 5], entry);
        desk.set_register(0, 0x5A);
        (desk.step(&mut memory).unwrap(), memory[1024 + 5])
    };
    assert_eq!(load(MAP_PRESENT | 2), (Event::Done, 0x5A));
    assert_eq!(load(!MAP_PRESENT), (Event::Entered(ABSENT), 0));
    assert_eq!(load(MAP_PRESENT | (MAP_FRAME + 1) | 2), (Event::Entered(MAP_ENTRY), 0));
    assert_eq!(load(MAP_PRESENT | MAP_FRAME), (Event::Entered(MAP_ENTRY), 0));
    assert_eq!(store(MAP_PRESENT | 2), (Event::Entered(READ_ONLY), 0));
    assert_eq!(store(MAP_PRESENT | MAP_WRITABLE | 2), (Event::Done, 0x5A));
    // The same of a page from which nothing is fetched.
    assert_eq!(load(MAP_PRESENT | MAP_NO_FETCH | 2), (Event::Done, 0x5A));
    assert_eq!(store(MAP_PRESENT | MAP_NO_FETCH | 2), (Event::Entered(READ_ONLY), 0));
    assert_eq!(store(MAP_PRESENT | MAP_NO_FETCH | MAP_WRITABLE | 2), (Event::Done, 0x5A));
    // CLEAR B R0, whose command byte lies in page 1 or is the last of page 0; the operand lies in page 1.
    for at in [0x205, 0x1FF] {
        let fetch = |entry| {
            let (mut desk, mut memory) = user(&[], entry);
            memory[512 + at..512 + at + 7].copy_from_slice(&[0x14, 2, 0, 0, 0, 0, 0]);
            desk.set_register(0, 0x5A);
            desk.set_register(15, at as u32);
            (desk.step(&mut memory).unwrap(), desk.register(0))
        };
        assert_eq!(fetch(MAP_PRESENT | 2), (Event::Done, 0));
        assert_eq!(fetch(MAP_PRESENT | MAP_NO_FETCH | 2), (Event::Entered(NO_FETCH), 0x5A));
        assert_eq!(fetch(MAP_PRESENT | MAP_NO_FETCH | MAP_WRITABLE | 2), (Event::Entered(NO_FETCH), 0x5A));
        assert_eq!(fetch(!MAP_PRESENT), (Event::Entered(ABSENT), 0x5A));
        // Each of the five bits below, and a frame past the memory, go before.
        for other in (24..29).map(|i| 1 << i | 2).chain([4]) {
            for entry in [MAP_PRESENT | other, MAP_PRESENT | MAP_NO_FETCH | other] {
                assert_eq!(load(entry), (Event::Entered(MAP_ENTRY), 0));
                assert_eq!(fetch(entry), (Event::Entered(MAP_ENTRY), 0x5A));
            }
        }
    }
}

#[test]
fn lists_are_rows_of_these_commands() {
    use numbers::{LIST_BYTE, LIST_COPIES, LIST_END, LIST_FOUR, LIST_MOVE, LIST_PIECES};
    let mut memory = [0xEE; 512];
    let list = [
        [LIST_BYTE, 1].as_slice(),
        &[LIST_FOUR, 2, 3, 4, 5],
        &[LIST_COPIES, 0, 2, 6],
        &[LIST_MOVE, 0, 0, 1, 0xFF],
        &[LIST_BYTE, 7],
        &[LIST_END],
    ]
    .concat();
    assert_eq!(load(&mut memory, &list), Ok(()));
    assert_eq!(memory[..8], [1, 2, 3, 4, 5, 6, 6, 0xEE]);
    assert_eq!(memory[510..], [0xEE, 7]);
    assert_eq!(load(&mut memory, &[LIST_COPIES + 1, LIST_END]), Err(Refusal::Malformed));
    let mut pieces = [LIST_COPIES, 0, 0, 0].repeat(LIST_PIECES);
    pieces.push(LIST_END);
    assert_eq!(load(&mut memory, &pieces), Ok(()));
    pieces.splice(0..0, [LIST_BYTE, 0]);
    assert_eq!(load(&mut memory, &pieces), Err(Refusal::Pieces));
}
