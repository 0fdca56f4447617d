//! The system block and the control blocks in words, and where they and the maps lie.

use crate::atlas::Atlas;
use crate::machine::{Known, Machine};
use crate::notation::{self, hexadecimal};
use crate::view;
use crate::words;

/// Bytes of memory that the kernel must keep: a block or a map.
#[derive(Clone, PartialEq, Eq, Debug)]
pub struct Thing {
    pub kind: Kind,
    pub at: u32,
    pub length: u32,
    /// `the system block`, `the control block of A`.
    pub words: String,
    /// The place of its program in the atlas.
    pub program: Option<usize>,
}

#[derive(Clone, Copy, PartialEq, Eq, Debug)]
pub enum Kind {
    System,
    Control,
    Map,
}

impl Thing {
    /// Whether a part of it lies in a frame.
    pub fn touches(&self, frame: u32) -> bool {
        let (from, to) = (u64::from(self.at), u64::from(self.at) + u64::from(self.length));
        let (start, end) = (u64::from(frame) * 512, (u64::from(frame) + 1) * 512);
        from < end && start < to
    }
}

/// The system block, the control blocks and the maps.
pub fn things(machine: &Machine, atlas: &Atlas) -> Vec<Thing> {
    let system = machine.desk.system_block();
    let mut things = vec![Thing {
        kind: Kind::System,
        at: system,
        length: 256,
        words: "the system block".to_string(),
        program: None,
    }];
    for (place, program) in atlas.programs.iter().enumerate() {
        let words = format!("the control block of {}", program.name);
        things.push(Thing { kind: Kind::Control, at: program.control_block, length: 80, words, program: Some(place) });
        let (length, words) = (program.map_length.saturating_mul(4), format!("the map of {}", program.name));
        things.push(Thing { kind: Kind::Map, at: program.map_base, length, words, program: Some(place) });
    }
    things
}

/// The system block: where the kernel goes on for each cause.
pub fn entries(known: &Known, memory: &[u8], system: u32) -> Vec<String> {
    let mut lines = vec![format!("system block at {}: the kernel is entered", known.real_place(system))];
    let mut missing = Vec::new();
    for cause in words::causes() {
        let at = system.wrapping_add(8 * cause);
        let (r15, status) = (view::word(memory, at).unwrap_or(0), view::word(memory, at.wrapping_add(4)).unwrap_or(0));
        match status & 0x8000_0000 != 0 && status & 0x7FFF_FF00 == 0 {
            true => {
                let level =
                    if status & 0xF0 != 0 { format!(", level {}", (status & 0xF0) >> 4) } else { String::new() };
                let words = format!("cause {cause}: {}", words::cause(cause));
                lines.push(format!("  {words:64}  at {}{level}", known.real_place(r15)));
            }
            false => missing.push(cause),
        }
    }
    if !missing.is_empty() {
        lines.push(format!("  no valid status, so stop 16: cause {}", spans(&missing)));
    }
    lines
}

/// `9, 10, 12 to 15`.
fn spans(numbers: &[u32]) -> String {
    let mut spans: Vec<(u32, u32)> = Vec::new();
    for number in numbers {
        match spans.last_mut() {
            Some((_, last)) if *last + 1 == *number => *last = *number,
            _ => spans.push((*number, *number)),
        }
    }
    let span = |(first, last): &(u32, u32)| match last - first {
        0 => first.to_string(),
        1 => format!("{first}, {last}"),
        _ => format!("{first} to {last}"),
    };
    spans.iter().map(span).collect::<Vec<_>>().join(", ")
}

/// A control block: registers, status, argument, map.
pub fn control(known: &Known, memory: &[u8], at: u32, name: &str) -> Vec<String> {
    let word = |offset: u32| view::word(memory, at.wrapping_add(offset));
    if word(76).is_none() {
        return vec![format!("control block at {}: not in the memory", known.real_place(at))];
    }
    let word = |offset: u32| word(offset).unwrap_or(0);
    let mut lines = vec![format!("control block of {name} at {}, registers as saved there", known.real_place(at))];
    for row in 0..4 {
        let cell = |i: u32| format!("{:3} {:08X}", notation::register(i as u8), word(4 * i));
        lines.push(format!("  {}", (0..4).map(|column| cell(4 * row + column)).collect::<Vec<_>>().join("   ")));
    }
    let status = word(64);
    lines.push(format!(
        "  status {status:08X} (flags {}), argument {}, map base {}, map length {}",
        words::flags(status),
        words::both(word(68)),
        hexadecimal(word(72)),
        word(76)
    ));
    lines
}

#[cfg(test)]
mod tests {
    #[test]
    fn spans_of_numbers() {
        assert_eq!(super::spans(&[1, 8, 9, 12, 13, 14]), "1, 8, 9, 12 to 14");
    }
}
