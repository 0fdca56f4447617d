//! Memories and desks of the tests.

use midesk::{numbers, Desk, Mark, Refusal};

pub fn put(memory: &mut [u8], at: usize, word: u32) {
    memory[at..at + 4].copy_from_slice(&word.to_be_bytes());
}

pub fn word(memory: &[u8], at: usize) -> u32 {
    u32::from_be_bytes(memory[at..at + 4].try_into().unwrap())
}

/// System block at 0, control block at 256, code at 512. Every entry of the system block leads to 768 in kernel mode.
pub fn memory(code: &[u8]) -> Vec<u8> {
    let mut memory = vec![0; 1024];
    for cause in 0..32 {
        put(&mut memory, numbers::system_pc(cause), 768);
        put(&mut memory, numbers::system_status(cause), numbers::KERNEL);
    }
    memory[512..512 + code.len()].copy_from_slice(code);
    memory
}

/// A desk in user mode at address 0, whose page 0 is frame 1.
pub fn user(memory: &mut [u8]) -> Desk {
    let mut desk = Desk::fresh(memory, 0, 256, 0).unwrap();
    put(memory, 336, numbers::MAP_PRESENT | numbers::MAP_WRITABLE | 1);
    desk.set_status(0);
    desk.set_map(336, 1);
    desk
}

/// Desks that a step and a run refuse, each with its memory and the refusal, in the order of their numbers.
pub fn spoiled() -> impl Iterator<Item = (Desk, Vec<u8>, Refusal)> {
    type Spoil = fn(&mut Desk);
    let spoils: [(Spoil, Refusal); 6] = [
        (|desk| desk.set_blocks(2, 256), Refusal::SystemBlock),
        (|desk| desk.set_blocks(0, 948), Refusal::ControlBlock),
        (|desk| desk.set_map(1, 0), Refusal::Map),
        (|desk| desk.set_map(0, 0x4000_0000), Refusal::Map),
        (|desk| desk.set_pending(3), Refusal::Status),
        (|desk| desk.set_mark(Mark::Stopped(16)), Refusal::Stopped),
    ];
    spoils.into_iter().map(|(spoil, refusal)| {
        let memory = memory(&[0x14, 2, 0x10, 0, 0, 0, 0]);
        let mut desk = Desk::fresh(&memory, 0, 256, 512).unwrap();
        for i in 0..15 {
            desk.set_register(i, 0x0123_4567 * (i as u32 + 1));
        }
        spoil(&mut desk);
        (desk, memory, refusal)
    })
}
