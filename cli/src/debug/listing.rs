//! `list`: commands where there are commands, data as data.

use super::commands::{count, nothing_more, Done, Session};
use crate::code::{in_kernel, in_program};
use crate::decode::Decoded;
use crate::effect;
use crate::hints;
use crate::image::SourceLine;
use crate::machine::{self, Machine};
use crate::names::Names;
use crate::notation;
use crate::options;
use crate::trace;
use crate::words;
use midesk::Desk;
use std::collections::BTreeSet;
use std::io::Write;

/// Lines that `list` shows, and how many commands before R15.
const LISTED: u64 = 10;
const BEFORE: usize = 4;
/// Lines that are shown at most, and bytes of zeros that are counted.
const MOST: u64 = 65_536;
/// Bytes of data in a line.
const DATA: u32 = 16;

pub fn list(session: &mut Session, arguments: &[&str], out: &mut dyn Write) -> Done {
    let n = count(arguments.get(1))?.unwrap_or(LISTED).min(MOST);
    nothing_more(arguments.get(2..).unwrap_or_default())?;
    let machine = &session.machine;
    let (desk, from) = match arguments.first() {
        Some(text) => viewed(machine, text)?,
        None => (machine.desk.clone(), None),
    };
    let lines = machine.known.lines.iter().map(|line| line.address).collect();
    let view = View { machine, code: &session.code, lines, desk: &desk };
    if desk != machine.desk && session.onward.is_none() {
        writeln!(out, "{}, {} addresses:", machine.known.who(&desk), if desk.is_kernel() { "real" } else { "its" })?;
    }
    let mut at = session.onward.or(from).unwrap_or_else(|| view.before(desk.register(15)));
    for _ in 0..n {
        let (line, next) = view.line(at);
        writeln!(out, "{}", line.trim_end())?;
        if view.real(at).is_none() {
            break;
        }
        at = next;
    }
    session.onward = Some(at);
    Ok(())
}

/// The desk with whose addresses a place counts, and its address: of the present mode, else the kernel's, else a program's.
fn viewed(machine: &Machine, text: &str) -> Result<(Desk, Option<u32>), String> {
    let known = &machine.known;
    if let Some(address) = options::address(text, known.names(&machine.desk)) {
        return Ok((machine.desk.clone(), Some(address)));
    }
    if let Some(address) = options::address(text, &known.real) {
        return Ok((in_kernel(&machine.desk), Some(address)));
    }
    let of_program = known.programs.iter().find_map(|program| {
        let address = options::address(text, &program.names)?;
        Some((in_program(&machine.desk, program), Some(address)))
    });
    of_program.ok_or_else(|| known.no_address(text))
}

/// The memory with the addresses of a mode.
struct View<'a> {
    machine: &'a Machine,
    /// Where commands begin, and where lines of the source do: real addresses.
    code: &'a BTreeSet<u32>,
    lines: BTreeSet<u32>,
    desk: &'a Desk,
}

impl View<'_> {
    fn names(&self) -> &Names {
        self.machine.known.names(self.desk)
    }

    fn real(&self, at: u32) -> Option<u32> {
        effect::real(self.desk, &self.machine.memory, at)
    }

    fn byte(&self, at: u32) -> Option<u8> {
        effect::byte(self.desk, &self.machine.memory, at)
    }

    fn is_next(&self, at: u32) -> bool {
        at == self.machine.desk.register(15) && *self.desk == self.machine.desk
    }

    fn source(&self, at: u32) -> Option<&SourceLine> {
        self.real(at).and_then(|real| self.machine.known.line(real))
    }

    /// Whether a command begins there. What cannot be fetched is data, but for the place at which the desk goes on.
    fn is_command(&self, at: u32) -> bool {
        let can_be_fetched = || effect::fetched_byte(self.desk, &self.machine.memory, at).is_ok();
        self.is_next(at) || self.real(at).is_some_and(|real| self.code.contains(&real)) && can_be_fetched()
    }

    /// A line of the list, and where the next one starts.
    fn line(&self, at: u32) -> (String, u32) {
        let mark = if self.is_next(at) { "=>" } else { "  " };
        let label = self.names().name_of(at).map(|name| format!("{name}:")).unwrap_or_default();
        let (words, next) = match self.is_command(at) || self.real(at).is_none() {
            true => self.command(at),
            false => self.data(at),
        };
        let line = self.source(at).map(|line| format!("line {}", line.line)).unwrap_or_default();
        (format!("{mark} {:>6}  {label:10} {words:40} {line}", trace::address(at)), next)
    }

    fn command(&self, at: u32) -> (String, u32) {
        match machine::command_at(self.desk, &self.machine.memory, at) {
            Ok(command) => (notation::written(&command, self.names()), command.next()),
            Err(trouble) => (hints::trouble(self.desk.is_kernel(), &trouble), at.wrapping_add(1)),
        }
    }

    /// Bytes up to the next label, command or line of the source: some of them, or a row of zeros.
    fn data(&self, at: u32) -> (String, u32) {
        let line = |at: u32| self.real(at).is_some_and(|real| self.lines.contains(&real));
        let ends = |at: u32| self.names().name_of(at).is_some() || self.is_command(at) || line(at);
        let more = |i: &u32| *i == 0 || !ends(at.wrapping_add(*i));
        let zero = |i: &u32| self.byte(at.wrapping_add(*i)) == Some(0);
        let mut zeros = (0..MOST as u32).take_while(|i| more(i) && zero(i)).count() as u32;
        if more(&zeros) {
            // The zeros before another byte of its word belong to the word.
            zeros = zeros.saturating_sub(at.wrapping_add(zeros) % 4);
        }
        if zeros > DATA {
            return (format!("{} zeros", words::count(u64::from(zeros))), at.wrapping_add(zeros));
        }
        let places = (0..DATA).take_while(more);
        let bytes: Vec<u8> = places.map_while(|i| self.byte(at.wrapping_add(i))).collect();
        let words: Vec<String> =
            bytes.chunks(4).map(|word| word.iter().map(|byte| format!("{byte:02X}")).collect()).collect();
        (format!("data {}", words.join(" ")), at.wrapping_add(bytes.len() as u32))
    }

    /// Where a list around R15 starts: a few commands before it, as far as commands from the nearest name before it lead to
    /// it.
    fn before(&self, r15: u32) -> u32 {
        let nearest = r15.checked_sub(1).and_then(|at| self.names().nearest(at)).map(|(_, distance)| distance + 1);
        let Some(distance) = nearest.filter(|distance| *distance < 512) else { return r15 };
        let mut starts = Vec::new();
        let mut at = r15 - distance;
        while at < r15 {
            starts.push(at);
            let decoded = machine::command_at(self.desk, &self.machine.memory, at);
            let Ok(next) = decoded.map(|command: Decoded| command.next()) else { return r15 };
            if next <= at || !self.is_command(at) {
                return r15;
            }
            at = next;
        }
        match at == r15 {
            true => starts.get(starts.len().saturating_sub(BEFORE)).copied().unwrap_or(r15),
            false => r15,
        }
    }
}
