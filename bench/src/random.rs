//! Random programs of the commands that plain Rust covers: every contender must leave the same after every step.

use crate::contender::{Contender, CONTENDERS};
use crate::plain;
use crate::random_floats;
use crate::state::{State, KERNEL, RUNNING};
use model::map::{lookup, Reason, Virtual};
use model::rng::Rng;

const LENGTH: usize = 8192;
const SYSTEM_BLOCK: u32 = 0;
const CONTROL_BLOCK: u32 = 256;
const MAP: u32 = 4096;
const PAGES: u32 = 16;
/// The bit of an entry of the map that forbids fetching.
const NO_FETCH: u32 = 0x2000_0000;

/// An address near the end of a page, or anywhere.
fn address(rng: &mut Rng) -> u32 {
    match rng.below(16) {
        0 => rng.word(),
        1..=7 => rng.below(LENGTH as u32 + 60),
        _ => (512 * (1 + rng.below(PAGES))).wrapping_sub(rng.below(10)),
    }
}

/// An operand for a value of so many bytes.
fn operand(rng: &mut Rng, size: u32) -> [u8; 6] {
    let mut form = if rng.chance(3) { rng.below(256) as u8 } else { rng.below(9) as u8 };
    // Form 1 is always an alarm for D.
    if size == 8 && form == 1 && rng.chance(90) {
        form = 2;
    }
    let (mut x, mut y, mut z) = (rng.below(16) as u8, rng.below(16) as u8, address(rng));
    if rng.chance(50) {
        z = rng.below(64);
    }
    // Mostly the fields that a form does not use are 0.
    if !rng.chance(4) {
        match form {
            0 => (x, y) = (0, 0),
            1 => (x, y, z) = (0, 0, number(rng, size, z)),
            2 => (y, z) = (0, 0),
            3 | 5 => y = 0,
            7 | 8 => (y, z) = (0, 0),
            _ => {}
        }
    }
    let z = z.to_be_bytes();
    [form, x << 4 | y, z[0], z[1], z[2], z[3]]
}

/// A value of form 1: near 0 on both sides, as shifts use it, or an F, or `any`; mostly of the size that is allowed.
fn number(rng: &mut Rng, size: u32, any: u32) -> u32 {
    let value = match rng.below(4) {
        0 => random_floats::number(rng, 4) as u32,
        1 => any,
        _ => rng.below(80).wrapping_sub(40),
    };
    if rng.chance(5) {
        value
    } else {
        value & u32::MAX >> (32 - 8 * size.min(4))
    }
}

/// The bytes of an operand's value, by the command's byte.
fn size(code: u8) -> u32 {
    match code {
        0x10..=0x1F | 0x28..=0x5F | 0x64..=0x67 => 1 << (code % 4).min(2),
        0x80..=0xA5 if code % 4 == 1 => 8,
        _ => 4,
    }
}

/// A command that plain Rust covers, or now and then any byte.
fn code(rng: &mut Rng, covered: &[u8]) -> u8 {
    match rng.below(40) {
        0 => rng.word() as u8,
        1..=4 => rng.pick(&[0x01, 0x02, 0x79, 0x7A]),
        _ => rng.pick(covered),
    }
}

fn put(memory: &mut [u8], address: u32, word: u32) {
    let at = address as usize;
    memory[at..at + 4].copy_from_slice(&word.to_be_bytes());
}

fn get(memory: &[u8], address: u32) -> u32 {
    let at = address as usize;
    u32::from_be_bytes(memory[at..at + 4].try_into().unwrap())
}

/// Memory and state with a program somewhere in pages 2 to 4.
pub fn case(rng: &mut Rng) -> (Vec<u8>, State) {
    let mut memory = vec![0; LENGTH];
    for bytes in memory.chunks_exact_mut(8) {
        let value = match rng.below(8) {
            0 => random_floats::number(rng, 8),
            1 | 2 => rng.next(),
            _ => continue,
        };
        bytes.copy_from_slice(&value.to_be_bytes());
    }
    for cause in 0..32 {
        let status = if rng.chance(5) { rng.word() } else { KERNEL | rng.below(256) };
        put(&mut memory, SYSTEM_BLOCK + 8 * cause, 1024 + rng.below(1200));
        put(&mut memory, SYSTEM_BLOCK + 8 * cause + 4, status);
    }
    for page in 0..PAGES {
        let code = (2..5).contains(&page) && rng.chance(80);
        let mut entry = match rng.below(24) {
            _ if code => 0xC000_0000 | page,
            0 => rng.below(0x8000_0000),
            1 => 0xC000_0000 | rng.below(PAGES) | 1 << (24 + rng.below(5)),
            2 => 0x8000_0000 | rng.below(PAGES),
            3 => 0xC000_0000 | PAGES << rng.below(12),
            _ => 0xC000_0000 | rng.below(PAGES),
        };
        if rng.chance(if code { 10 } else { 30 }) {
            entry |= NO_FETCH;
        }
        put(&mut memory, MAP + 4 * page, entry);
    }
    let start = if rng.chance(20) { 1536 - rng.below(20) } else { 1024 + rng.below(600) };
    let mut at = start as usize;
    let covered: Vec<u8> = (0..=255).filter(|byte| plain::covers(*byte)).collect();
    for _ in 0..12 {
        let code = code(rng, &covered);
        memory[at] = code;
        at += 1;
        for _ in 0..model::code::decode(code).map_or(0, |command| command.operands.len()) {
            memory[at..at + 6].copy_from_slice(&operand(rng, size(code)));
            at += 6;
        }
    }
    let mut registers = [0; 16];
    registers.fill_with(|| address(rng));
    for _ in 0..rng.below(3) {
        let x = rng.below(14) as usize;
        let number = random_floats::number(rng, 8);
        (registers[x], registers[x + 1]) = ((number >> 32) as u32, number as u32);
    }
    registers[15] = start;
    let state = State {
        registers,
        status: if rng.chance(50) { KERNEL } else { 0 } | rng.below(256),
        map_base: MAP,
        map_length: PAGES - rng.below(3),
        system_block: SYSTEM_BLOCK,
        control_block: CONTROL_BLOCK,
        stopped: RUNNING,
        pending: if rng.chance(5) { rng.word() as u16 & !1 } else { 0 },
    };
    (memory, state)
}

/// Where the model finds a byte that is to be fetched, or the number of the alarm.
fn fetched(memory: &[u8], state: &State, address: u32) -> Result<usize, u32> {
    lookup(&state.to_model(), memory, Virtual(address), Reason::Fetch).map(|place| place.0 as usize)
}

/// The command byte that a step of this desk would fetch, if it is to be had.
pub fn next_byte(memory: &[u8], state: &State) -> Option<u8> {
    fetched(memory, state, state.registers[15]).ok().and_then(|place| memory.get(place).copied())
}

/// Whether it is the byte of a command that plain Rust does not cover.
pub fn uncovered(byte: u8) -> bool {
    model::code::decode(byte).is_some() && !plain::covers(byte)
}

#[test]
fn random_programs() {
    let mut rng = Rng::new(1);
    let mut numbers = [0u64; 33];
    let mut done = [0u64; 256];
    let mut unfetched = [0u64; 2];
    for case_number in 0..120_000 {
        let (mut memory, mut state) = case(&mut rng);
        let first = (memory.clone(), state);
        let mut steps = 0;
        while steps < 12 && state.stopped == RUNNING {
            let byte = next_byte(&memory, &state);
            if byte.is_some_and(uncovered) {
                break;
            }
            let before = (memory.clone(), state);
            assert_eq!(Contender::Model.run(&mut memory, &mut state, 1), Ok(1));
            for contender in CONTENDERS {
                let (mut other_memory, mut other) = before.clone();
                assert_eq!(contender.run(&mut other_memory, &mut other, 1), Ok(1), "{contender:?}");
                assert_eq!(other, state, "case {case_number}, step {steps}: {contender:?} from {:X?}", before.1);
                assert!(other_memory == memory, "case {case_number}, step {steps}: {contender:?}, memory");
            }
            steps += 1;
            if let Some(byte) =
                byte.filter(|_| state.stopped == RUNNING && state.status & KERNEL == before.1.status & KERNEL)
            {
                done[byte as usize] += 1;
            }
            // An argument that is no address is below 256.
            let argument = get(&memory, CONTROL_BLOCK + 68);
            let entered = state.stopped == RUNNING && state.status & KERNEL != before.1.status & KERNEL;
            if entered && argument >= 256 && fetched(&before.0, &before.1, argument) == Err(21) {
                unfetched[usize::from(argument != before.1.registers[15])] += 1;
            }
        }
        numbers[if state.stopped == RUNNING { 32 } else { state.stopped as usize % 32 }] += 1;
        for contender in CONTENDERS {
            let (mut other_memory, mut other) = first.clone();
            assert_eq!(contender.run(&mut other_memory, &mut other, steps), Ok(steps), "{contender:?}");
            assert_eq!(other, state, "case {case_number}, {steps} steps: {contender:?}");
            assert!(other_memory == memory, "case {case_number}, {steps} steps: {contender:?}, memory");
        }
    }
    // Every stop of a covered command was met: 8 in kernel mode, 12, 14, 16, HALT, and runs that go on.
    for number in [0, 8, 12, 14, 16, 32] {
        assert!(numbers[number] > 100, "stop {number}: {numbers:?}");
    }
    // So was alarm 21, by a command byte and by a byte of an operand.
    assert!(unfetched.iter().all(|count| *count > 100), "{unfetched:?}");
    // So was the quiet end of every covered command.
    for byte in (1..=255).filter(|byte| plain::covers(*byte)) {
        assert!(done[byte as usize] > 100, "{byte:02X}h: {done:?}");
    }
}

/// The same with another length or other values in the state, which mostly are refused.
pub fn damaged(rng: &mut Rng) -> (Vec<u8>, State) {
    let (mut memory, mut state) = case(rng);
    memory.truncate(if rng.chance(20) { rng.below(LENGTH as u32) as usize } else { LENGTH });
    for _ in 0..1 + rng.below(2) {
        let value = if rng.chance(50) { rng.word() } else { LENGTH as u32 - 4 * rng.below(80) };
        match rng.below(7) {
            0 => state.status = value,
            1 => state.map_base = value,
            2 => state.map_length = value,
            3 => state.system_block = value,
            4 => state.control_block = value,
            5 => state.stopped = value,
            _ => state.pending = value as u16,
        }
    }
    (memory, state)
}

#[test]
fn refusals() {
    let mut rng = Rng::new(2);
    let mut numbers = [0u64; 8];
    for _ in 0..20_000 {
        let (mut memory, mut state) = damaged(&mut rng);
        let n = u64::from(rng.below(2));
        let before = (memory.clone(), state);
        let answer = Contender::Model.run(&mut memory, &mut state, n);
        numbers[answer.err().unwrap_or(0) as usize] += 1;
        if answer.is_ok() {
            continue;
        }
        for contender in CONTENDERS {
            let (mut other_memory, mut other) = before.clone();
            assert_eq!(contender.run(&mut other_memory, &mut other, n), answer, "{contender:?} {:X?}", before.1);
            assert!((other_memory, other) == before, "{contender:?}");
        }
    }
    for number in [1, 2, 3, 4, 5, 7] {
        assert!(numbers[number] > 100, "refusal {number}: {numbers:?}");
    }
}
