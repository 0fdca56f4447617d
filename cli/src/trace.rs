//! A step as a line: number, mode, address, command, flags, and what it changed.

use crate::decode::Decoded;
use crate::diagnose::Finding;
use crate::floats;
use crate::hints;
use crate::machine::{Change, Known, Step};
use crate::notation::{self, hexadecimal};
use crate::report;
use crate::table::Flow;
use crate::view;
use crate::words;
use midesk::{numbers, Desk, Event};

/// The head of the columns.
pub const HEAD: &str = " step mode   address  command                               flags  changes";

/// The step's lines; `memory` is the memory after it. A kernel entry has lines of its own.
pub fn lines(known: &Known, memory: &[u8], step: &Step) -> Vec<String> {
    let mut parts = changes(known, step);
    parts.extend(outcome(known, memory, step));
    let head = format!(
        "{:5} {:6} {:>7}  {:36}  {}   {}",
        step.number,
        words::mode(step.before.is_kernel()),
        address(step.before.register(15)),
        command(known, step),
        words::flags(step.after.status()),
        parts.join("; "),
    );
    let mut lines = vec![head.trim_end().to_string()];
    if let Event::Entered(cause) = step.event {
        let entry = entry(known, memory, step, cause);
        lines.extend(entry.iter().flat_map(|line| words::folded(line, 13, 15)));
    }
    lines
}

/// A kernel entry in words, and where to look.
fn entry(known: &Known, memory: &[u8], step: &Step, cause: u32) -> Vec<String> {
    let argument = argument(memory, step);
    let on = known.place(&step.after, step.after.register(15));
    let mut lines =
        vec![format!("kernel entry, cause {cause}: {}; goes on at {on}", words::cause_with(cause, argument))];
    let hints = hints::of(known, memory, &step.before, Finding::Cause(cause, argument));
    lines.extend(hints.into_iter().map(|hint| hint.text));
    lines
}

/// An address of at least three digits.
pub fn address(address: u32) -> String {
    format!("{address:03X}h")
}

/// The command with its label, or what stands in its place.
pub fn command(known: &Known, step: &Step) -> String {
    let names = known.names(&step.before);
    let label = names.name_of(step.before.register(15)).map(|name| format!("{name}: ")).unwrap_or_default();
    match &step.command {
        None => "(interrupt)".to_string(),
        Some(Ok(command)) => format!("{label}{}", notation::written(command, names)),
        Some(Err(trouble)) => format!("{label}{}", hints::trouble(step.before.is_kernel(), trouble)),
    }
}

/// Registers (but R15) and memory that the step changed, in words, and a floating number that it gave.
pub fn changes(known: &Known, step: &Step) -> Vec<String> {
    let mut parts: Vec<String> = registers(step).iter().map(|(name, old, new)| change(name, *old, *new)).collect();
    parts.extend(step.changes.iter().map(|change| memory_change(known, step, change)));
    parts.extend(step.result.map(|(bits, size)| format!("result {}", floats::in_words(bits, size))));
    parts
}

fn change(name: &str, old: u32, new: u32) -> String {
    format!("{name} {} -> {}", hexadecimal(old), hexadecimal(new))
}

/// The registers that the step changed, but R15: name, old, new.
pub fn registers(step: &Step) -> Vec<(String, u32, u32)> {
    let both = step.before.registers().into_iter().zip(step.after.registers()).take(15).enumerate();
    let changed = both.filter(|(_, (old, new))| old != new);
    changed.map(|(i, (old, new))| (notation::register(i as u8), old, new)).collect()
}

fn memory_change(known: &Known, step: &Step, change: &Change) -> String {
    let name = known.names(&step.before).content_of(change.address).map(|name| format!("{name} "));
    let place = match step.before.is_kernel() {
        true => hexadecimal(change.real),
        false => format!("{}, real {}", hexadecimal(change.address), hexadecimal(change.real)),
    };
    let name = name.unwrap_or_else(|| "memory ".to_string());
    match (value(&change.old), value(&change.new)) {
        (Some(old), Some(new)) => format!("{name}({place}) {old} -> {new}"),
        _ => format!("{name}({place}) {} words", change.new.len().div_ceil(4)),
    }
}

/// Up to eight bytes as a number.
fn value(bytes: &[u8]) -> Option<String> {
    let number = bytes.iter().fold(0, |number, byte| number << 8 | u64::from(*byte));
    match u32::try_from(number) {
        _ if bytes.len() > 8 => None,
        Ok(number) => Some(hexadecimal(number)),
        Err(_) => Some(format!("{number:016X}h")),
    }
}

/// The argument that an entry saved.
pub fn argument(memory: &[u8], step: &Step) -> u32 {
    let at = step.before.control_block().wrapping_add(numbers::CONTROL_ARGUMENT as u32);
    view::word(memory, at).unwrap_or(0)
}

/// Jumps, RESUME and stops in words.
fn outcome(known: &Known, memory: &[u8], step: &Step) -> Option<String> {
    let on = known.place(&step.after, step.after.register(15));
    match (step.event, &step.command) {
        (Event::Entered(_), _) => None,
        (Event::Stopped(number), _) => {
            Some(format!("stop {number}: {}", report::stop(number, report::behind(&step.after, memory, number))))
        }
        _ if step.before.is_kernel() && !step.after.is_kernel() => {
            Some(format!("to user mode: {} goes on at {on}", known.who(&step.after)))
        }
        (_, Some(Ok(command))) => jump(command, &step.after, &on),
        _ => None,
    }
}

fn jump(command: &Decoded, after: &Desk, on: &str) -> Option<String> {
    match (after.register(15) == command.next(), command.command.flow) {
        (true, Flow::Branch) => Some("does not jump".to_string()),
        (true, _) => None,
        (false, _) => Some(format!("goes on at {on}")),
    }
}
