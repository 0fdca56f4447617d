//! How a run ended, in words: the stop and its meaning, where to look, the last kernel entry, registers and flags.

use crate::diagnose::{self, Finding};
use crate::effect;
use crate::hints::{self, Hint};
use crate::machine::{self, Known, Machine};
use crate::notation::{self, hexadecimal};
use crate::view;
use crate::words;
use midesk::{numbers, Desk, Refusal};

/// How a run ended.
#[derive(Clone, PartialEq, Eq, Debug)]
pub enum End {
    Stopped(u32),
    /// As many steps as allowed were made.
    Limit,
    /// What was waited for is reached.
    Held(String),
    /// The breakpoint of this number holds it; where.
    Breakpoint(u32, String),
    Refused(Refusal),
}

/// A kernel entry, with the desk as it was when the command began.
#[derive(Clone, Debug)]
pub struct Entry {
    pub step: u64,
    pub cause: u32,
    pub argument: u32,
    pub words: String,
    pub hints: Vec<Hint>,
}

impl Entry {
    /// The entry that a step has just made.
    pub fn of(machine: &Machine, cause: u32) -> Entry {
        let before = saved(machine);
        let at = machine.desk.control_block().wrapping_add(numbers::CONTROL_ARGUMENT as u32);
        let argument = view::word(&machine.memory, at).unwrap_or(0);
        let by = match words::alarm_of_cause(cause) {
            Some(_) => format!(", in {}", commanded(machine, &before)),
            None => format!(", in {}", machine.known.who(&before)),
        };
        let words = format!("cause {cause}: {}{by}", words::cause_with(cause, argument));
        let hints = hints::of(&machine.known, &machine.memory, &before, Finding::Cause(cause, argument));
        Entry { step: machine.steps, cause, argument, words, hints }
    }
}

/// The desk as the control block has saved it.
fn saved(machine: &Machine) -> Desk {
    let mut desk = machine.desk.clone();
    let word = |i: u32| view::word(&machine.memory, machine.desk.control_block().wrapping_add(4 * i)).unwrap_or(0);
    for i in 0..16 {
        desk.set_register(i, word(i as u32));
    }
    desk.set_status(word(16));
    desk
}

/// `program A at 14h: MOVE W R0,0 (line 57)`.
pub fn commanded(machine: &Machine, desk: &Desk) -> String {
    let known = &machine.known;
    let address = desk.register(15);
    let command = match machine::command_at(desk, &machine.memory, address) {
        Ok(command) => notation::written(&command, known.names(desk)),
        Err(trouble) => hints::trouble(desk.is_kernel(), &trouble),
    };
    let line = effect::real(desk, &machine.memory, address).and_then(|real| known.line(real));
    let line = line.map(|line| format!(" (line {})", line.line)).unwrap_or_default();
    format!("{} at {}: {command}{line}", known.who(desk), known.place(desk, address))
}

/// A stop in words, with the alarm or other cause behind it where that is known.
pub fn stop(number: u32, finding: Option<Finding>) -> String {
    match (number, finding) {
        (16, Some(Finding::Cause(cause, _))) => {
            format!("{}, and the system block has no valid kernel status for it", words::event(cause))
        }
        (14, Some(Finding::Block(_))) => "alarm 14 in kernel mode, RESUME's block cannot be used".to_string(),
        (_, Some(Finding::Cause(cause, argument))) if cause == number => words::alarm_with(cause, argument),
        _ => words::stop(number),
    }
}

/// The first line of a report.
pub fn headline(machine: &Machine, end: &End, finding: Option<Finding>) -> String {
    let steps = words::steps(machine.steps);
    match end {
        End::Stopped(0) => {
            let at = machine.desk.register(15).wrapping_sub(1);
            format!("stop 0 after {steps}: HALT at {}", machine.known.real_place(at))
        }
        End::Stopped(number) => format!("stop {number} after {steps}: {}", stop(*number, finding)),
        End::Limit => format!("still running after {steps}, the limit"),
        End::Held(what) => format!("held after {steps}: {what}"),
        End::Breakpoint(number, place) => format!("held after {steps}: at breakpoint {number}, {place}"),
        End::Refused(refusal) => format!("refusal {} after {steps}: {refusal}", refusal.number()),
    }
}

/// Where to look, a line each.
pub fn notes(machine: &Machine, end: &End, finding: Option<Finding>) -> Vec<String> {
    let (known, desk) = (&machine.known, &machine.desk);
    let mut notes = Vec::new();
    if let (End::Stopped(16), Some(Finding::Cause(cause, argument))) = (end, finding) {
        notes.push(format!("cause {cause}: {}", words::cause_with(cause, argument)));
    }
    match (end, finding) {
        (End::Stopped(0) | End::Refused(_), _) => {}
        (End::Stopped(_), Some(Finding::Cause(0..=15, _) | Finding::Block(_))) | (End::Stopped(_), None) => {
            notes.push(format!("command: {}", commanded(machine, desk)))
        }
        _ => notes.push(format!("next: {}", commanded(machine, desk))),
    }
    let hints = finding.map(|finding| hints::of(known, &machine.memory, desk, finding)).unwrap_or_default();
    notes.extend(hints.iter().map(Hint::line));
    if let (End::Stopped(16), Some(Finding::Cause(cause, _))) = (end, finding) {
        notes.push(missing_entry(machine, cause));
    }
    notes
}

/// Where the desk came from, if it stopped where there is no command: the step before may be a jump gone astray.
pub fn origin(machine: &Machine, end: &End, before: Option<&Desk>) -> Option<String> {
    let astray = machine.command_at(machine.desk.register(15)).is_err();
    let before = before.filter(|_| astray && matches!(end, End::Stopped(1..)))?;
    Some(format!("came from: {}", commanded(machine, before)))
}

/// The finding behind the end of a run.
pub fn finding(machine: &Machine, end: &End) -> Option<Finding> {
    match end {
        End::Stopped(number) => behind(&machine.desk, &machine.memory, *number),
        _ => None,
    }
}

/// The finding behind a stop that is no HALT.
pub fn behind(desk: &Desk, memory: &[u8], number: u32) -> Option<Finding> {
    (number != numbers::HALT).then(|| diagnose::of(desk, memory)).flatten()
}

/// Why a cause is no kernel entry: what the system block has for it.
fn missing_entry(machine: &Machine, cause: u32) -> String {
    let at = machine.desk.system_block().wrapping_add(8 * cause);
    let status = view::word(&machine.memory, at.wrapping_add(4)).unwrap_or(0);
    format!(
        "stop 16: the system block's entry for cause {cause}, at {}, has the status {status:08X}h, which is no valid kernel status; so the desk stops, and the kernel is not entered",
        hexadecimal(at),
    )
}

/// Mode, level, flags, registers and blocks.
pub fn state(known: &Known, desk: &Desk) -> Vec<String> {
    let mut lines = vec![format!(
        "{} mode, level {}, flags {}{}",
        words::mode(desk.is_kernel()),
        desk.level(),
        words::flags(desk.status()),
        pending(desk)
    )];
    for row in 0..4 {
        let cell = |i: usize| format!("{:3} {:08X}", notation::register(i as u8), desk.register(i));
        let cells: Vec<String> = (0..4).map(|column| cell(4 * row + column)).collect();
        lines.push(cells.join("   "));
    }
    let map = match desk.map_length() {
        0 => "no map".to_string(),
        length => format!("{} with {}", hints::map_name(known, desk.map_base()), hints::pages(length)),
    };
    lines.push(format!(
        "system block {}, control block {}, {map}",
        known.real_place(desk.system_block()),
        known.real_place(desk.control_block())
    ));
    lines
}

/// The pending levels, lowest first.
pub fn levels(desk: &Desk) -> Vec<u32> {
    (0..16).filter(|level| desk.pending() >> level & 1 == 1).collect()
}

fn pending(desk: &Desk) -> String {
    let levels: Vec<String> = levels(desk).iter().map(u32::to_string).collect();
    match levels.is_empty() {
        true => String::new(),
        false => format!(", pending level {}", levels.join(", ")),
    }
}
