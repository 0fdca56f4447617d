//! What `desk run` writes: the trace and the end, as text or as JSON lines.

use crate::diagnose::Finding;
use crate::dump;
use crate::engine::Ran;
use crate::json::Json;
use crate::machine::{Machine, Step};
use crate::notation;
use crate::plan::Plan;
use crate::report::{self, End, Entry};
use crate::setup;
use crate::trace;
use crate::words;
use midesk::{numbers, Desk, Event};
use std::io::{self, Write};

/// The writer of a run.
pub struct Show<'a> {
    json: bool,
    head: bool,
    out: &'a mut dyn Write,
}

impl<'a> Show<'a> {
    pub fn new(plan: &Plan, out: &'a mut dyn Write) -> Show<'a> {
        Show { json: plan.json, head: plan.trace && !plan.json, out }
    }

    /// A step of the trace.
    pub fn step(&mut self, machine: &Machine, step: &Step) -> io::Result<()> {
        if self.json {
            return writeln!(self.out, "{}", step_object(machine, step).line());
        }
        if std::mem::take(&mut self.head) {
            writeln!(self.out, "{}", trace::HEAD)?;
        }
        for line in trace::lines(&machine.known, &machine.memory, step) {
            writeln!(self.out, "{line}")?;
        }
        Ok(())
    }

    /// The end of the run; answers with the exit status.
    pub fn end(&mut self, machine: &Machine, plan: &Plan, ran: &Ran) -> io::Result<u8> {
        let status = status(&ran.end);
        if self.json {
            writeln!(self.out, "{}", end_object(machine, plan, ran, status).line())?;
            return Ok(status);
        }
        if plan.trace && machine.steps > 0 {
            writeln!(self.out)?;
        }
        for line in end_lines(machine, plan, ran) {
            writeln!(self.out, "{line}")?;
        }
        Ok(status)
    }
}

/// The exit status of an end.
pub fn status(end: &End) -> u8 {
    match end {
        End::Stopped(number) => u8::try_from(*number).unwrap_or(u8::MAX),
        End::Breakpoint(..) => 123,
        End::Limit => 124,
        End::Held(_) => 125,
        End::Refused(refusal) => setup::refusal_status(*refusal),
    }
}

/// Where to look, and where the desk came from.
fn notes(machine: &Machine, plan: &Plan, ran: &Ran, finding: Option<Finding>) -> Vec<String> {
    let mut notes = report::notes(machine, &ran.end, finding);
    notes.extend(plan.until.as_ref().and_then(|until| until.not_held(&machine.known, &ran.end, finding)));
    notes.extend(plan.breakpoints.not_held(&machine.known, &ran.end));
    notes.extend(report::origin(machine, &ran.end, ran.origin.as_ref()));
    notes
}

fn end_lines(machine: &Machine, plan: &Plan, ran: &Ran) -> Vec<String> {
    let finding = report::finding(machine, &ran.end);
    let mut lines = vec![report::headline(machine, &ran.end, finding)];
    lines.extend(notes(machine, plan, ran, finding).iter().flat_map(|note| words::folded(note, 2, 4)));
    if let Some(Entry { step, words, hints, .. }) = &ran.entry {
        lines.extend(words::folded(&format!("last kernel entry: step {}, {words}", words::count(*step)), 0, 4));
        lines.extend(hints.iter().flat_map(|hint| words::folded(&hint.line(), 2, 4)));
    }
    lines.extend(
        not_made(plan, ran)
            .map(|(step, level)| format!("the request {level}@{step} was not made: the run ended before that step")),
    );
    lines.push(String::new());
    lines.extend(report::state(&machine.known, &machine.desk));
    for (address, count) in &plan.dumps {
        lines.push(String::new());
        lines.extend(dump_lines(machine, *address, *count));
    }
    lines
}

/// Requests whose step was not reached.
fn not_made<'a>(plan: &'a Plan, ran: &Ran) -> impl Iterator<Item = &'a (u64, u32)> {
    plan.requests.iter().skip(ran.requests)
}

fn dump_lines(machine: &Machine, address: u32, count: u32) -> Vec<String> {
    let bytes = dumped(&machine.memory, address, count);
    let mut lines = vec![format!("memory from {}", machine.known.real_place(address))];
    lines.extend(dump::rows(address, &bytes.iter().copied().map(Some).collect::<Vec<_>>()));
    if bytes.len() < count as usize {
        lines.push(format!("the memory ends at {}", notation::hexadecimal(machine.memory.len() as u32)));
    }
    lines
}

fn dumped(memory: &[u8], address: u32, count: u32) -> &[u8] {
    let from = (address as usize).min(memory.len());
    let to = from.saturating_add(count as usize).min(memory.len());
    memory.get(from..to).unwrap_or_default()
}

fn step_object(machine: &Machine, step: &Step) -> Json {
    let (event, number) = match step.event {
        Event::Entered(cause) => ("entry", Some(cause)),
        Event::Stopped(number) => ("stop", Some(number)),
        _ => ("done", None),
    };
    let finding = match step.event {
        Event::Entered(cause) => Some(Finding::Cause(cause, trace::argument(&machine.memory, step))),
        Event::Stopped(number) => report::behind(&step.after, &machine.memory, number),
        _ => None,
    };
    let said = match (step.event, finding) {
        (Event::Entered(_), Some(Finding::Cause(cause, argument))) => Some(words::cause_with(cause, argument)),
        (Event::Stopped(number), finding) => Some(report::stop(number, finding)),
        _ => None,
    };
    let [cause, argument] = numbers_of(finding);
    let command = step.command.as_ref().and_then(|command| command.as_ref().ok());
    let names = machine.known.names(&step.before);
    Json::Object(vec![
        ("step", Json::Number(step.number)),
        ("mode", Json::text(words::mode(step.before.is_kernel()))),
        ("address", Json::word(step.before.register(15))),
        ("command", Json::or_null(command, |command| Json::text(notation::written(command, names)))),
        ("bytes", Json::or_null(command, |command| Json::bytes(&command.bytes))),
        ("event", Json::text(event)),
        ("number", Json::or_null(number, Json::word)),
        ("cause", cause),
        ("argument", argument),
        ("words", Json::or_null(said, Json::text)),
        ("r15", Json::word(step.after.register(15))),
        ("status", Json::word(step.after.status())),
        ("flags", flags(&step.after)),
        ("registers", Json::List(trace::registers(step).into_iter().map(register_object).collect())),
        ("memory", Json::List(step.changes.iter().map(change_object).collect())),
    ])
}

/// Cause and argument of a finding; the block of a RESUME has no argument.
fn numbers_of(finding: Option<Finding>) -> [Json; 2] {
    match finding {
        Some(Finding::Cause(cause, argument)) => [Json::word(cause), Json::word(argument)],
        Some(Finding::Block(_)) => [Json::word(numbers::OPERAND), Json::Null],
        None => [Json::Null, Json::Null],
    }
}

fn flags(desk: &Desk) -> Json {
    Json::text(words::flags(desk.status()).replace('-', ""))
}

fn register_object((name, old, new): (String, u32, u32)) -> Json {
    Json::Object(vec![("name", Json::text(name)), ("old", Json::word(old)), ("new", Json::word(new))])
}

fn change_object(change: &crate::machine::Change) -> Json {
    Json::Object(vec![
        ("address", Json::word(change.address)),
        ("real", Json::word(change.real)),
        ("old", Json::bytes(&change.old)),
        ("new", Json::bytes(&change.new)),
    ])
}

fn end_object(machine: &Machine, plan: &Plan, ran: &Ran, status: u8) -> Json {
    let (end, number) = match &ran.end {
        End::Stopped(number) => ("stop", Some(*number)),
        End::Limit => ("limit", None),
        End::Held(_) => ("until", None),
        End::Breakpoint(number, _) => ("break", Some(*number)),
        End::Refused(refusal) => ("refused", Some(refusal.number())),
    };
    let finding = report::finding(machine, &ran.end);
    let hints = notes(machine, plan, ran, finding).into_iter().map(Json::Text).collect();
    let [cause, argument] = numbers_of(finding);
    let desk = &machine.desk;
    Json::Object(vec![
        ("end", Json::text(end)),
        ("number", Json::or_null(number, Json::word)),
        ("cause", cause),
        ("argument", argument),
        ("words", Json::text(report::headline(machine, &ran.end, finding))),
        ("hints", Json::List(hints)),
        ("exit", Json::word(u32::from(status))),
        ("steps", Json::Number(machine.steps)),
        ("entry", Json::or_null(ran.entry.as_ref(), entry_object)),
        ("mode", Json::text(words::mode(desk.is_kernel()))),
        ("level", Json::word(desk.level())),
        ("flags", flags(desk)),
        ("registers", Json::List(desk.registers().into_iter().map(Json::word).collect())),
        ("status", Json::word(desk.status())),
        ("pending", Json::List(report::levels(desk).into_iter().map(Json::word).collect())),
        ("map_base", Json::word(desk.map_base())),
        ("map_length", Json::word(desk.map_length())),
        ("system_block", Json::word(desk.system_block())),
        ("control_block", Json::word(desk.control_block())),
        ("not_made", Json::List(not_made(plan, ran).map(request_object).collect())),
        ("dumps", Json::List(plan.dumps.iter().map(|dump| dump_object(machine, *dump)).collect())),
    ])
}

fn request_object((step, level): &(u64, u32)) -> Json {
    Json::Object(vec![("step", Json::Number(*step)), ("level", Json::word(*level))])
}

fn entry_object(entry: &Entry) -> Json {
    Json::Object(vec![
        ("step", Json::Number(entry.step)),
        ("cause", Json::word(entry.cause)),
        ("argument", Json::word(entry.argument)),
        ("words", Json::text(&entry.words)),
        ("hints", Json::List(entry.hints.iter().map(|hint| Json::text(hint.line())).collect())),
    ])
}

fn dump_object(machine: &Machine, (address, count): (u32, u32)) -> Json {
    let bytes = Json::bytes(dumped(&machine.memory, address, count));
    Json::Object(vec![("address", Json::word(address)), ("bytes", bytes)])
}
