//! Random images that get somewhere: commands with sensible operands, a map, blocks.

use super::Random;
use desk::image::{self, Image};
use desk::table;

/// An image of a few frames with random commands for a kernel and a user program, and a map that is mostly right.
pub fn random(random: &mut Random) -> Image {
    let frames = 4 + random.below(5) as usize;
    let mut memory = vec![0; 512 * frames];
    for cause in 0..32 {
        if random.below(4) > 0 {
            put(&mut memory, 8 * cause, 0x200 + random.below(3) as u32 * 7);
            put(&mut memory, 8 * cause + 4, 0x8000_0000 | (random.below(4) as u32));
        }
    }
    for i in 0..15 {
        put(&mut memory, 0x100 + 4 * i, random.below(0xA00) as u32);
    }
    put(&mut memory, 0x138, 0x200 + random.below(0x200) as u32);
    put(&mut memory, 0x148, 0x400);
    put(&mut memory, 0x14C, 1 + random.below(4) as u32);
    for page in 0..5 {
        let rights = *random.pick(&[0x8000_0000, 0xC000_0000, 0xC000_0000, 0xA000_0000, 0xE000_0000, 0, 0x8100_0000]);
        put(&mut memory, 0x400 + 4 * page, rights | random.below(frames as u64 + 1) as u32);
    }
    let page = if random.below(16) == 0 { 0xA000_0003 } else { 0x8000_0003 };
    put(&mut memory, 0x400, page);
    commands(random, &mut memory, 0x200, 0x3C0);
    commands(random, &mut memory, 0x600, 0x7C0);
    if random.below(2) == 0 {
        memory[0x200..0x207].copy_from_slice(&[5, 0, 0, 0, 0, 1, 0]);
    }
    image::of_bytes(memory)
}

pub fn put(memory: &mut [u8], at: usize, word: u32) {
    memory[at..at + 4].copy_from_slice(&word.to_be_bytes());
}

/// Fills memory from one address to another with commands.
fn commands(random: &mut Random, memory: &mut [u8], from: usize, to: usize) {
    let known: Vec<_> = (0..=255).filter_map(table::command).collect();
    let mut at = from;
    while at < to {
        let command = *random.pick(&known);
        memory[at] = command.byte;
        at += 1;
        for _ in command.operands {
            memory[at..at + 6].copy_from_slice(&operand(random));
            at += 6;
        }
    }
}

/// An operand that mostly keeps the rules.
fn operand(random: &mut Random) -> [u8; 6] {
    let form = random.below(9) as u8;
    let (x, y) = (random.below(15) as u8, random.below(15) as u8);
    let (x, y) = match form {
        0 | 1 => (0, 0),
        4 | 6 => (x, y),
        _ => (x, 0),
    };
    let z: u32 = match form {
        1 => random.below(256) as u32,
        0 | 3..=6 => random.below(0x900) as u32,
        _ => 0,
    };
    let [a, b, c, d] = z.to_be_bytes();
    let form = if random.below(50) == 0 { 9 } else { form };
    [form, x << 4 | y, a, b, c, d]
}
