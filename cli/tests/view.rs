//! Holds the lookup of a virtual address against the proved machine: the same alarm, or the same byte; to read it, to write it
//! and to fetch it.

mod common;

use common::Random;
use desk::decode::Trouble;
use desk::machine;
use desk::view::{self, Rights};
use midesk::{Desk, Event};

const MEMORY: usize = 0x1000;
const MAP: u32 = 0x200;
const CODE: u32 = 0x400;

fn put(memory: &mut [u8], at: u32, word: u32) {
    memory[at as usize..at as usize + 4].copy_from_slice(&word.to_be_bytes());
}

/// A memory with a map, whose page 0 is frame 2 with one command; the other pages are random.
fn memory(random: &mut Random, pages: u32, command: &[u8]) -> Vec<u8> {
    let mut memory = vec![0; MEMORY];
    for cause in 0..32 {
        put(&mut memory, 8 * cause, 0x600);
        put(&mut memory, 8 * cause + 4, 0x8000_0000);
    }
    for page in 1..pages {
        let frame = random.below(10) as u32;
        let bits = *random.pick(&[
            0,
            0x2000_0000,
            0x4000_0000,
            0x8000_0000,
            0xC000_0000,
            0xA000_0000,
            0xE000_0000,
            0x8100_0000,
            0xB000_0000,
        ]);
        put(&mut memory, MAP + 4 * page, bits + frame);
    }
    put(&mut memory, MAP, 0x8000_0000 + CODE / 512);
    memory[CODE as usize..CODE as usize + command.len()].copy_from_slice(command);
    for byte in &mut memory[0x600..] {
        *byte = random.next() as u8;
    }
    memory
}

/// Runs one command in user mode, from address 0 on, and gives its alarm.
fn alarm(memory: &mut [u8], pages: u32) -> (Option<u32>, Desk) {
    alarm_at(memory, pages, 0)
}

/// Likewise, of the command at an address.
fn alarm_at(memory: &mut [u8], pages: u32, at: u32) -> (Option<u32>, Desk) {
    let mut desk = Desk::fresh(memory, 0, 0x100, at).expect("a desk");
    desk.set_status(0);
    desk.set_map(MAP, pages);
    let alarm = match desk.step(memory).expect("a step") {
        Event::Entered(cause) => Some(cause),
        _ => None,
    };
    (alarm, desk)
}

#[test]
fn lookups_are_those_of_the_machine() {
    let mut random = Random(0x71E3);
    let mut met = [0; 16];
    for _ in 0..20_000 {
        let pages = 2 + random.below(6) as u32;
        let address = 512 + random.below(512 * 8) as u32;
        let [a, b, c, d] = address.to_be_bytes();
        let reading = [0x10, 0, 0, a, b, c, d, 2, 0, 0, 0, 0, 0];
        let mut before = memory(&mut random, pages, &reading);
        let found = view::real(&before, MAP, pages, address);
        let (read, desk) = alarm(&mut before.clone(), pages);
        match found {
            Ok((real, _)) => assert_eq!((read, desk.register(0)), (None, u32::from(before[real as usize]))),
            Err(damage) => assert_eq!(read, damage.alarm()),
        }
        let writing = [0x10, 1, 0, 0, 0, 0, 1, 0, 0, a, b, c, d];
        before[CODE as usize..CODE as usize + writing.len()].copy_from_slice(&writing);
        let (written, _) = alarm(&mut before, pages);
        let expected = match found {
            Ok((_, Rights { write: true, .. })) => None,
            Ok(_) => Some(11),
            Err(damage) => damage.alarm(),
        };
        assert_eq!(written, expected);
        met[written.unwrap_or(0) as usize] += 1;
    }
    assert!([0, 8, 9, 10, 11].iter().all(|number| met[*number] > 500), "{met:?}");
}

/// What an entry saved: R15, and the argument.
fn saved(memory: &[u8]) -> [u32; 2] {
    [0x13C, 0x144].map(|at| view::word(memory, at).expect("a word"))
}

/// A jump to any address: the byte there is fetched, and is then an unknown command, or there is the alarm of the lookup.
#[test]
fn fetches_of_a_command_are_those_of_the_machine() {
    let mut random = Random(0x71E4);
    let mut met = [0; 16];
    for _ in 0..20_000 {
        let pages = 2 + random.below(6) as u32;
        let address = 512 + random.below(512 * 8) as u32;
        let mut memory = memory(&mut random, pages, &[]);
        if let Ok(real) = view::real_to_fetch(&memory, MAP, pages, address) {
            memory[real as usize] = 0xFF;
        }
        // That byte may have been one of the map's.
        let expected = match view::real_to_fetch(&memory, MAP, pages, address) {
            Ok(real) if memory[real as usize] == 0xFF => 12,
            Ok(_) => continue,
            Err(Trouble::NoFetch(at)) => {
                let found = view::real(&memory, MAP, pages, address);
                assert!(at == address && found.is_ok_and(|(_, rights)| !rights.fetch), "{found:?}");
                2
            }
            Err(trouble) => {
                assert_eq!(trouble, Trouble::Unreadable(address));
                let damage = view::real(&memory, MAP, pages, address).expect_err("it cannot be read");
                damage.alarm().expect("an alarm")
            }
        };
        let (found, _) = alarm_at(&mut memory, pages, address);
        assert_eq!(found, Some(expected), "{address:X}");
        if expected != 12 {
            assert_eq!(saved(&memory), [address, address]);
        }
        met[expected as usize] += 1;
    }
    assert!([2, 8, 9, 10, 12].iter().all(|number| met[*number] > 500), "{met:?}");
}

/// A command at the end of page 0 whose operands lie in page 1: its alarm has the address of the first byte there, and the saved
/// R15 is the command's own. Forms 5 and 6, values, results and the stack read and write a page without commands.
#[test]
fn operands_are_fetched_and_what_they_name_is_not() {
    let clear = [0x16, 0, 0, 0, 0, 4, 0];
    for entry in [0x8000_0003, 0xC000_0003, 0xA000_0003, 0xE000_0003, 0x2000_0003, 0x9000_0003, 0xBF00_0003] {
        for first in 505..512_u32 {
            let mut memory = memory(&mut Random(1), 3, &[]);
            put(&mut memory, MAP + 4, entry);
            put(&mut memory, MAP + 8, 0xE000_0004);
            let bytes: Vec<usize> = (first..first + 7).map(|at| (CODE + at) as usize).collect();
            for (real, byte) in bytes.iter().zip(clear) {
                memory[*real] = byte;
            }
            let expected = match view::real(&memory, MAP, 3, 512) {
                _ if first == 505 => None,
                Ok((_, Rights { fetch: true, .. })) => None,
                Ok(_) => Some(2),
                Err(damage) => damage.alarm(),
            };
            let (found, _) = alarm_at(&mut memory, 3, first);
            assert_eq!(found, expected, "{entry:X}, {first}");
            match expected {
                Some(_) => assert_eq!(saved(&memory), [first, 512], "{entry:X}, {first}"),
                None => assert_eq!(view::word(&memory, 0x800), Some(0)),
            }
        }
    }
    let commands: [&[u8]; 6] = [
        &[0x12, 0, 0, 0, 0, 2, 0, 2, 0, 0, 0, 0, 0],
        &[0x12, 1, 0, 0, 0, 0, 1, 0, 0, 0, 0, 2, 0],
        &[0x12, 5, 0, 0, 0, 2, 4, 2, 0, 0, 0, 0, 0],
        &[0x12, 6, 0x01, 0, 0, 2, 4, 2, 0, 0, 0, 0, 0],
        &[0x79, 0, 0, 0, 0, 0, 0],
        &[0x7A],
    ];
    for command in commands {
        let mut memory = memory(&mut Random(1), 2, command);
        put(&mut memory, MAP + 4, 0xE000_0003);
        put(&mut memory, 0x604, 0x208);
        let mut desk = Desk::fresh(&memory, 0, 0x100, 0).expect("a desk");
        desk.set_status(0);
        desk.set_map(MAP, 2);
        desk.set_register(14, 0x220);
        assert_eq!(desk.step(&mut memory), Ok(Event::Done), "{command:02X?}");
    }
}

/// In kernel mode the map does not count: what it marks is fetched all the same.
#[test]
fn kernel_mode_fetches_everywhere() {
    let mut memory = memory(&mut Random(1), 8, &[0x16, 2, 0, 0, 0, 0, 0]);
    for page in 0..8 {
        put(&mut memory, MAP + 4 * page, 0xA000_0000 + page);
    }
    let mut desk = Desk::fresh(&memory, 0, 0x100, CODE).expect("a desk");
    desk.set_map(MAP, 8);
    assert!(machine::command_at(&desk, &memory, CODE).is_ok());
    let mut user = desk.clone();
    user.set_status(0);
    assert_eq!(machine::command_at(&user, &memory, CODE), Err(Trouble::NoFetch(CODE)));
    assert_eq!(desk.step(&mut memory.clone()), Ok(Event::Done));
    assert_eq!(user.step(&mut memory), Ok(Event::Entered(2)));
}

#[test]
fn a_map_outside_the_memory_leads_nowhere() {
    let memory = vec![0; 512];
    for base in [510, 512, 0x7FFF_FFFC, 0xFFFF_FFFC] {
        assert_eq!(view::real(&memory, base, u32::MAX, 0).map_err(view::Damage::alarm), Err(None), "{base:X}");
        assert!(view::real(&memory, base, u32::MAX, u32::MAX).is_err());
    }
}
