//! Two load lists into one memory. Whether they clash is found out in the scratch, before memory is changed: the last
//! bytes of the two are compared in two rounds, by their high halves and by their low halves.

use super::entry::allowed;
use super::load::{judge, next, put, Command, LENGTH};

/// Numbers of refusals.
const SCRATCH: u32 = 22;
const CLASH: u32 = 23;

/// A note is 0 where the first list has put nothing, else one more than the half that it has put last; and so much more
/// where the second list has put another half last.
const DIFFERS: u8 = 32;

/// Loads two lists; where they are refused, memory stays as it was.
#[inline(never)]
pub fn load_both(memory: &mut [u8], first: &[u8], second: &[u8], scratch: &mut [u8]) -> Result<(), u32> {
    if !allowed(memory.len() as u64) {
        return Err(LENGTH);
    }
    judge(memory.len(), first)?;
    judge(memory.len(), second)?;
    if scratch.len() < memory.len() {
        return Err(SCRATCH);
    }
    scratch.fill(0);
    let notes = &mut scratch[..memory.len()];
    if differ(notes, first, second, |byte| byte / 16) || differ(notes, first, second, |byte| byte % 16) {
        return Err(CLASH);
    }
    put(memory, first);
    put(memory, second);
    Ok(())
}

/// A round: whether the lists differ in a half of some byte that both put last. Of notes of 0 it leaves such notes.
fn differ(notes: &mut [u8], first: &[u8], second: &[u8], half: impl Fn(u8) -> u8) -> bool {
    note_all(notes, first, |_, byte| half(byte) + 1);
    note_all(notes, second, |old, byte| match old % DIFFERS {
        0 => 0,
        first if first == half(byte) + 1 => first,
        first => first + DIFFERS,
    });
    take(notes)
}

/// Replaces the notes of what a list puts, one put after another, by those that `note` makes of them and the byte.
fn note_all(notes: &mut [u8], mut list: &[u8], note: impl Fn(u8, u8) -> u8) {
    let mut place = 0;
    while let Some((command, rest)) = next(list) {
        list = rest;
        match command {
            Command::End => break,
            Command::Move(address) => place = address,
            Command::Byte(byte) => {
                notes[place] = note(notes[place], byte);
                place += 1;
            }
            Command::Four(bytes) => {
                for (old, byte) in notes[place..place + 4].iter_mut().zip(bytes) {
                    *old = note(*old, byte);
                }
                place += 4;
            }
            // The place may lie outside.
            Command::Copies(0, _) => {}
            Command::Copies(count, byte) => {
                for old in &mut notes[place..place + count] {
                    *old = note(*old, byte);
                }
                place += count;
            }
        }
    }
}

/// Whether a note says that the lists differ; it clears them all.
fn take(notes: &mut [u8]) -> bool {
    let mut found = false;
    for note in notes {
        found |= *note >= DIFFERS;
        *note = 0;
    }
    found
}
