//! Coverage of pages without commands (request F-4): what the stored cases reach, and its tables.

use crate::code::{decode, Op};
use crate::cover::{add, Counts, Cover};
use crate::map::{entry_at, get, lookup, Reason, Virtual, DATA, FORBIDDEN, FRAME, PRESENT, WRITABLE};
use crate::notes::Note;
use crate::state::*;
use crate::table::Table;
use crate::work::Part;

/// What an entry of the map is, but for the writable bit and the one against fetching.
const KINDS: [&str; 4] = ["absent", "forbidden bit", "past the memory", "good"];
const REASONS: [Reason; 3] = [Reason::Fetch, Reason::Read, Reason::Write];
/// The commands 70h to 7Ah.
const JUMPS: [&str; 11] = ["70h", "71h", "72h", "73h", "74h", "75h", "76h", "77h", "78h", "CALL", "RET"];
/// Stands for every unknown command byte.
const UNKNOWN: u16 = 256;

#[derive(Default)]
pub struct Fetches {
    /// Alarm 21: the command byte, and what can't be fetched: it (0), or an operand (1 to 3).
    commands: Counts<(u16, u32)>,
    /// Alarm 21: the operand, and which of its bytes (from 1).
    bytes: Counts<(u32, u32)>,
    /// Alarm 21 at a command byte: how the desk came there.
    ways: Counts<&'static str>,
    /// What an entry is, its writable bit, its bit against fetching, why it was looked up.
    entries: Counts<(&'static str, bool, bool, Reason)>,
    /// Number of a forbidden bit that is set, the bit against fetching, why it was looked up.
    forbidden: Counts<(u32, bool, Reason)>,
    /// Part of a command that looked a good page without commands up, and the writable bit.
    parts: Counts<(Part, bool)>,
    /// Levels entered where alarm 21 would come.
    levels: Counts<u32>,
    others: Counts<&'static str>,
    /// How the step before led to R15.
    way: &'static str,
}

/// What is seen of a step before it is made.
pub struct Before {
    /// The byte at R15, if it can be read.
    byte: Option<u8>,
    /// Its entry in the map, whatever the mode.
    entry: Option<u32>,
    /// Whether an entry of a good page without commands names the frame that R15 lies in.
    named: bool,
}

/// An entry with the bit against fetching that neither 9 nor 10 refuses.
fn is_data(entry: u32, memory: &[u8]) -> bool {
    entry & DATA != 0 && kind(entry, memory) == "good"
}

fn kind(entry: u32, memory: &[u8]) -> &'static str {
    let past = u64::from(entry & FRAME) * u64::from(FRAME_BYTES) >= memory.len() as u64;
    if entry & PRESENT == 0 {
        "absent"
    } else if entry & FORBIDDEN != 0 {
        "forbidden bit"
    } else if past {
        "past the memory"
    } else {
        "good"
    }
}

/// The number for an entry by the rules, 0 for none.
fn number_of(kind: &str, writable: bool, data: bool, reason: Reason) -> u32 {
    match (kind, reason) {
        ("absent", _) => 9,
        ("forbidden bit" | "past the memory", _) => 10,
        (_, Reason::Fetch) if data => 21,
        (_, Reason::Write) if !writable => 11,
        _ => 0,
    }
}

impl Before {
    pub fn of(state: &State, memory: &[u8]) -> Before {
        let at = Virtual(state.registers[PC]);
        let real = lookup(state, memory, at, Reason::Read).ok();
        let frame = real.map(|real| real.0 / FRAME_BYTES);
        let pages = 0..state.map_length.min(1024);
        let mut entries = pages.filter_map(|page| entry_at(state, memory, Virtual(page * FRAME_BYTES)));
        let named = entries.any(|entry| is_data(entry, memory) && Some(entry & FRAME) == frame);
        Before { byte: real.map(|real| get(memory, real)), entry: entry_at(state, memory, at), named }
    }
}

impl Fetches {
    /// A case begins, or another desk.
    pub fn begins(&mut self) {
        self.way = "the start";
    }

    /// Counts a step; `memory` is as long as the one that it was made on.
    pub fn stepped(&mut self, before: &State, seen: &Before, after: &State, notes: &[Note], memory: &[u8]) {
        let pc = before.registers[PC];
        let data_here = seen.entry.is_some_and(|entry| is_data(entry, memory));
        let mut fetched = None;
        // Bytes in good pages without commands, and why they were looked up.
        let mut used = Vec::new();
        let mut refused = false;
        for note in notes {
            match note {
                Note::Command(byte) => fetched = Some(*byte),
                Note::Lookup { at, entry, reason, part, number } => {
                    let (writable, data) = (entry & WRITABLE != 0, entry & DATA != 0);
                    let kind = kind(*entry, memory);
                    assert_eq!(*number, number_of(kind, writable, data, *reason), "entry {entry:08X} {reason:?}");
                    add(&mut self.entries, (kind, writable, data, *reason));
                    if kind == "forbidden bit" {
                        for bit in (24..29).filter(|bit| entry >> bit & 1 == 1) {
                            add(&mut self.forbidden, (bit, data, *reason));
                        }
                    }
                    if kind == "good" && data {
                        add(&mut self.parts, (*part, writable));
                        used.push((*at, *reason));
                    }
                    if *number == 21 {
                        refused = true;
                        let lies = fetched.or(seen.byte).map_or(UNKNOWN, u16::from);
                        let command = if decode(lies as u8).is_some() { lies } else { UNKNOWN };
                        let place = if let Part::Fetch(place) = part { *place } else { 0 };
                        add(&mut self.commands, (command, place));
                        if place > 0 {
                            let first = pc.wrapping_add(1 + 6 * (place - 1));
                            add(&mut self.bytes, (place, at.wrapping_sub(first) + 1));
                        } else {
                            add(&mut self.ways, self.way);
                        }
                    }
                }
                _ => {}
            }
        }
        let both = used.iter().any(|(at, reason)| *reason == Reason::Read && used.contains(&(*at, Reason::Write)));
        if both {
            add(&mut self.others, "a byte read and written there by one command");
        }
        let level = crate::entry::interrupt(before);
        if before.kernel() && fetched.is_some() && data_here {
            add(&mut self.others, "kernel mode, at the address of such a page");
        }
        if before.kernel() && fetched.is_some() && seen.named {
            add(&mut self.others, "kernel mode, in a frame that such a page names");
        }
        if !before.kernel() && fetched.is_some() && seen.named {
            add(&mut self.others, "user mode, in a frame that such a page names too");
        }
        match level {
            Some(level) if data_here => add(&mut self.levels, level),
            None if refused && before.pending != 0 => {
                add(&mut self.others, "alarm 21 while a level waits that isn't above the status level");
            }
            _ => {}
        }
        if refused && after.stopped() {
            add(&mut self.others, "alarm 21 and stop 16");
        }
        self.way = match fetched {
            None => "an entry",
            Some(byte) => way(byte, pc, after.registers[PC]),
        };
    }
}

/// How a command led from one address to another.
pub fn way(byte: u8, from: u32, to: u32) -> &'static str {
    let operands = decode(byte).map_or(0, |known| known.operands.len() as u32);
    match byte {
        _ if to == from.wrapping_add(1 + 6 * operands) => "straight on",
        0x70..=0x7A => JUMPS[usize::from(byte - 0x70)],
        0x05 => "RESUME",
        _ => "a result in R15",
    }
}

fn bit_name(set: bool, name: &str) -> String {
    format!("{}{name}", if set { "" } else { "not " })
}

pub fn fetches(cover: &Cover, table: &mut Table) {
    let Fetches { commands, bytes, ways, entries, forbidden, parts, levels, others, .. } = &cover.fetches;
    println!("Alarm 21 by command byte: the byte itself, operands 1 to 3");
    for byte in (0..=UNKNOWN).filter(|byte| *byte == UNKNOWN || decode(*byte as u8).is_some()) {
        let known = if byte == UNKNOWN { None } else { decode(byte as u8) };
        let operands = match &known {
            Some(known) if known.op != Op::Resume => known.operands.len() as u32,
            _ => 0,
        };
        let name = if known.is_some() { format!("{byte:02X}h") } else { "unknown".to_string() };
        let cells = (0..=3).map(|place| ((byte, place), place <= operands)).collect();
        table.row(commands, "alarm 21", &name, 8, cells);
    }
    println!("  impossible: what a command doesn't have; RESUME's operand isn't fetched in user mode");
    println!("Alarm 21 by operand, and which of its six bytes can't be fetched");
    for place in 1..=3 {
        let cells = (1..=6).map(|byte| ((place, byte), true)).collect();
        table.row(bytes, "alarm 21 by byte", &format!("operand {place}"), 12, cells);
    }
    println!("Alarm 21 at a command byte: how the desk came there");
    for way in ["the start", "straight on"].into_iter().chain(JUMPS).chain(["RESUME", "a result in R15"]) {
        table.row(ways, "way to alarm 21", way, 16, vec![(way, true)]);
    }
    println!("Entries by what they are and their bits, looked up for a fetch, a read, a write");
    for kind in KINDS {
        for (writable, data) in [(false, false), (false, true), (true, false), (true, true)] {
            let name = format!("{kind}, {}, {}", bit_name(writable, "writable"), bit_name(data, "20000000h"));
            let cells = REASONS.map(|reason| ((kind, writable, data, reason), true)).to_vec();
            table.row(entries, "entries", &name, 44, cells);
        }
    }
    println!("Forbidden bits without and with 20000000h, looked up for a fetch, a read, a write");
    for bit in (24..29).rev() {
        let both = [false, true].map(|data| REASONS.map(|reason| ((bit, data, reason), true)));
        table.row(forbidden, "forbidden bits", &format!("{:08X}h", 1 << bit), 12, both.concat());
    }
    println!("Pages without commands, by the part that looks them up: not writable, writable");
    let mut rows = vec![Part::Byte];
    rows.extend((1..=3).flat_map(|place| [Part::Fetch(place), Part::Indirect(place)]));
    rows.extend([Part::Value(1), Part::Value(2), Part::Stack, Part::Write]);
    for part in rows {
        let cells = [false, true].map(|writable| ((part, writable), true)).to_vec();
        table.row(parts, "pages without commands", &format!("{part:?}"), 12, cells);
    }
    println!("Levels 1 to 15 that are entered where alarm 21 would come");
    let cells: Vec<(u32, bool)> = (1..16).map(|level| (level, true)).collect();
    table.row(levels, "level before alarm 21", "", 0, cells);
    for what in [
        "a byte read and written there by one command",
        "alarm 21 and stop 16",
        "alarm 21 while a level waits that isn't above the status level",
        "kernel mode, at the address of such a page",
        "kernel mode, in a frame that such a page names",
        "user mode, in a frame that such a page names too",
    ] {
        table.row(others, "pages without commands", what, 64, vec![(what, true)]);
    }
    println!();
}
