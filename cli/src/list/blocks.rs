//! System block, control blocks and maps as the directives that give them.

use super::labels::Labels;
use super::lines::Line;
use crate::asm::fields::{FIELDS, LENGTH, MAP, STATUS, SYSTEM_BLOCK};
use crate::image::Program;
use crate::names::Names;
use crate::notation::{self, hexadecimal};
use crate::table::Size;
use crate::view;
use crate::words;

const KERNEL: u32 = 0x8000_0000;
const UNDEFINED: u32 = 0x7FFF_FF00;

fn is_kernel_status(status: u32) -> bool {
    status & KERNEL != 0 && status & UNDEFINED == 0
}

/// Causes, R15 and status of the entries that are not zeros.
fn entries(memory: &[u8], system: u32) -> Vec<(u32, u32, u32)> {
    let word = |offset| view::word(memory, system.saturating_add(offset)).unwrap_or(0);
    let entry = |cause: u32| (cause, word(8 * cause), word(8 * cause + 4));
    (0..SYSTEM_BLOCK / 8).map(entry).filter(|(_, r15, status)| (*r15, *status) != (0, 0)).collect()
}

/// Where the kernel goes on for each cause that has a valid entry.
pub fn kernel_places(memory: &[u8], system: u32) -> Vec<u32> {
    let used = |cause| words::causes().any(|used| used == cause);
    let valid = |(cause, r15, status): (u32, u32, u32)| (used(cause) && is_kernel_status(status)).then_some(r15);
    entries(memory, system).into_iter().filter_map(valid).collect()
}

pub fn system_block(memory: &[u8], system: u32, names: &Names) -> Vec<Line> {
    let mut lines = vec![Line { real: Some(system), text: "SYSTEM BLOCK".to_string(), ..Line::default() }];
    for (cause, r15, status) in entries(memory, system) {
        let on = match (cause, words::alarm_of_cause(cause)) {
            (_, Some(alarm)) => format!("ALARM {alarm}"),
            (1, _) => "SYSTEM CALL".to_string(),
            (17..=31, _) => format!("INTERRUPT {}", cause - 16),
            _ => format!("CAUSE {cause}"),
        };
        let level = (status & 0xF0) >> 4;
        let rest = match status {
            KERNEL => String::new(),
            _ if is_kernel_status(status) && status & 0xF == 0 => format!(", LEVEL {level}"),
            _ => format!(", STATUS {}", hexadecimal(status)),
        };
        let text = format!("ON {on} TO {}{rest}", notation::place(r15, names));
        let bytes = format!("{r15:08X} {status:08X}");
        lines.push(Line { real: Some(system + 8 * cause), bytes, text, ..Line::default() });
    }
    lines
}

pub fn control_block(memory: &[u8], program: &Program, own: &Names, labels: &Labels, map_shown: bool) -> Line {
    let block = program.control_block;
    let word = |offset: u32| view::word(memory, block + offset).unwrap_or(0);
    let mut parts = vec![format!("START {}", notation::place(word(60), own))];
    let as_known = word(MAP) == program.map_base && word(LENGTH) == program.map_length;
    match labels.of(program.map_base).first().filter(|_| map_shown && as_known) {
        Some(name) => parts.push(format!("MAP {name}")),
        None => parts.push(format!("MAP {}, LENGTH {}", hexadecimal(word(MAP)), word(LENGTH))),
    }
    for (name, offset) in FIELDS.iter().filter(|(name, offset)| *name != "R14" && *offset != 60 && *offset <= 68) {
        let value = word(*offset);
        match *offset {
            _ if value == 0 => {}
            STATUS if value & !0xF0 == 0 => parts.push(format!("LEVEL {}", value >> 4)),
            _ => parts.push(format!("{} {}", name.to_ascii_uppercase(), notation::value(value, Size::W))),
        }
    }
    let words: Vec<u32> = (0..20).map(|i| word(4 * i)).collect();
    let text = format!("CONTROL BLOCK {}", parts.join(", "));
    Line { real: Some(block), bytes: runs(&words), text, ..Line::default() }
}

/// `18*00000000 00000400 00000002`.
fn runs(words: &[u32]) -> String {
    let mut found: Vec<(u32, usize)> = Vec::new();
    for word in words {
        match found.last_mut() {
            Some((same, count)) if same == word => *count += 1,
            _ => found.push((*word, 1)),
        }
    }
    let run = |(word, count): &(u32, usize)| match count {
        1 => format!("{word:08X}"),
        _ => format!("{count}*{word:08X}"),
    };
    let mut text = found.iter().take(5).map(run).collect::<Vec<_>>().join(" ");
    if found.len() > 5 {
        text.push_str(" ..");
    }
    text
}

/// A line for each page, or for a row of pages that are alike.
pub fn map(memory: &[u8], base: u32, length: u32) -> Vec<Line> {
    let mut lines = vec![Line { real: Some(base), text: "MAP".to_string(), ..Line::default() }];
    let word = |page: u32| view::word(memory, base + 4 * page).unwrap_or(0);
    let mut page = 0;
    while page < length {
        let entry = word(page);
        let follows = |next: u32| word(next) == if is_frame(entry) { entry.wrapping_add(next - page) } else { entry };
        let mut last = page;
        while last + 1 < length && follows(last + 1) && is_frame(word(last + 1)) == is_frame(entry) {
            last += 1;
        }
        let several = last - page >= 2;
        let (upto, pages) = if several { (last, format!("{page} TO {last}")) } else { (page, page.to_string()) };
        let bytes = format!("{entry:08X}{}", if several { " .." } else { "" });
        let text = format!("PAGE {pages}: {}", content(entry));
        let remark = damage(memory, page, upto, entry);
        lines.push(Line { real: Some(base + 4 * page), bytes, text, remark, ..Line::default() });
        page = upto + 1;
    }
    lines
}

/// A present entry without a forbidden bit.
fn is_frame(entry: u32) -> bool {
    entry & view::PRESENT != 0 && entry & view::FORBIDDEN == 0
}

fn content(entry: u32) -> String {
    let frame = entry & view::FRAME;
    match entry {
        0 => "ABSENT".to_string(),
        1..=view::FRAME => format!("ABSENT, FRAME {frame}"),
        _ if is_frame(entry) => {
            let right = if entry & view::WRITABLE != 0 { "WRITE" } else { "READ" };
            let fetch = if entry & view::NO_FETCH != 0 { ", NO FETCH" } else { "" };
            format!("FRAME {frame}, {right}{fetch}")
        }
        _ => format!("WORD {}", hexadecimal(entry)),
    }
}

/// What is wrong with an entry that is present, or seems to be.
fn damage(memory: &[u8], page: u32, last: u32, entry: u32) -> String {
    let last_entry = if is_frame(entry) { entry.wrapping_add(last - page) } else { entry };
    match view::entry_of(memory, page, last_entry) {
        Err(view::Damage::ForbiddenBits { .. }) => "damaged: bits 28 to 24 are not 0 (alarm 10)".to_string(),
        Err(view::Damage::PastMemory { .. }) => "damaged: the frame is past the memory (alarm 10)".to_string(),
        Err(view::Damage::Absent { .. }) if entry > view::FRAME => "absent".to_string(),
        _ => String::new(),
    }
}
