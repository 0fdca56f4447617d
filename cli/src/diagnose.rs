//! Which alarm stopped a desk, and with which argument. A stop does not keep these; but the step can be made once more on a
//! copy, in which every cause has an entry in the system block, and the proved step itself then tells.

use crate::effect;
use crate::image::LARGEST;
use crate::machine::due;
use crate::view;
use midesk::{numbers, Desk, Event, Mark};

/// What a step of the desk runs into.
#[derive(Clone, Copy, PartialEq, Eq, Debug)]
pub enum Finding {
    /// This cause with this argument.
    Cause(u32, u32),
    /// RESUME of a block, at this address, that cannot be used.
    Block(u32),
}

const JUMP: u8 = 0x70;
const RESUME: u8 = 0x05;
const SYSTEM_CALL: u8 = 0x03;

/// What stopped this desk; none for HALT, and in kernel mode where there is no room for the copy's blocks.
pub fn of(desk: &Desk, memory: &[u8]) -> Option<Finding> {
    let mut desk = desk.clone();
    desk.set_mark(Mark::Running);
    match desk.is_kernel() {
        true => in_kernel_mode(desk, memory),
        false => in_user_mode(desk, memory),
    }
}

fn in_user_mode(mut desk: Desk, memory: &[u8]) -> Option<Finding> {
    if let Some(level) = due(&desk) {
        return Some(Finding::Cause(numbers::interrupt(level), level));
    }
    let (mut copy, at) = match longer(memory, 512) {
        Some(copy) => (copy, memory.len()),
        // The longest memory: the entries go where the system block is, which the program hardly reads.
        None => (memory.to_vec(), desk.system_block() as usize),
    };
    hide(&mut copy, &desk, memory.len());
    desk.set_blocks(entries(&mut copy, at)?, desk.control_block());
    outcome(desk, copy)
}

/// In user mode behind a map in which each page is the frame of its number, the same command meets the same alarm.
fn in_kernel_mode(mut desk: Desk, memory: &[u8]) -> Option<Finding> {
    let first = effect::byte(&desk, memory, desk.register(15));
    if first == Some(SYSTEM_CALL) {
        return Some(Finding::Cause(numbers::MODE, u32::from(SYSTEM_CALL)));
    }
    let frames = u32::try_from(memory.len() / 512).ok()?;
    let mut copy = longer(memory, 1024 + 4 * frames as usize)?;
    let blocks = u32::try_from(memory.len()).ok()?;
    for frame in 0..frames {
        let entry = numbers::MAP_PRESENT | numbers::MAP_WRITABLE | frame;
        put(&mut copy, blocks + 512 + 4 * frame, entry)?;
    }
    desk.set_map(blocks + 512, frames);
    desk.set_blocks(entries(&mut copy, memory.len())?, blocks + 256);
    desk.set_status(desk.status() & !numbers::KERNEL);
    desk.set_pending(0);
    if first != Some(RESUME) {
        return outcome(desk, copy);
    }
    // RESUME's operand is taken as JUMP takes it.
    *copy.get_mut(desk.register(15) as usize)? = JUMP;
    let mut tried = desk.clone();
    match tried.step(&mut copy.clone()).ok()? {
        Event::Done => Some(Finding::Block(tried.register(15))),
        _ => outcome(desk, copy),
    }
}

fn outcome(mut desk: Desk, mut memory: Vec<u8>) -> Option<Finding> {
    match desk.step(&mut memory).ok()? {
        Event::Entered(cause) => {
            let at = desk.control_block().checked_add(numbers::CONTROL_ARGUMENT as u32)?;
            Some(Finding::Cause(cause, view::word(&memory, at)?))
        }
        _ => None,
    }
}

/// The memory with zeros behind it, if that is an allowed length.
fn longer(memory: &[u8], by: usize) -> Option<Vec<u8>> {
    let length = (memory.len() + by).div_ceil(512) * 512;
    let mut copy = memory.to_vec();
    (length <= LARGEST).then(|| {
        copy.resize(length, 0);
        copy
    })
}

/// A system block with a valid kernel status for every cause.
fn entries(memory: &mut [u8], at: usize) -> Option<u32> {
    let at = u32::try_from(at).ok()?;
    for cause in 0..32 {
        put(memory, at + 8 * cause + 4, numbers::KERNEL)?;
    }
    Some(at)
}

/// Entries that name the frames added behind the memory stay damaged.
fn hide(memory: &mut [u8], desk: &Desk, length: usize) {
    let added = (length / 512) as u32..(memory.len() / 512) as u32;
    for page in 0..desk.map_length() {
        let at = desk.map_base().wrapping_add(4 * page);
        match view::word(memory, at) {
            Some(entry) if entry & numbers::MAP_PRESENT != 0 && added.contains(&(entry & numbers::MAP_FRAME)) => {
                let _ = put(memory, at, entry | 0x0100_0000);
            }
            Some(_) => {}
            None => return,
        }
    }
}

fn put(memory: &mut [u8], at: u32, word: u32) -> Option<()> {
    let at = at as usize;
    memory.get_mut(at..at + 4)?.copy_from_slice(&word.to_be_bytes());
    Some(())
}
