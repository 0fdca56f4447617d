//! The commands of the prompt: one table of names, help and what they do.

use super::history::History;
use super::{breakpoints, floating, listing, looks, moves};
use crate::atlas;
use crate::breakpoints::Breakpoints;
use crate::code;
use crate::machine::Machine;
use crate::options;
use std::collections::BTreeSet;
use std::io::{self, Write};

/// A desk at the prompt.
pub struct Session {
    pub machine: Machine,
    pub history: History,
    pub breakpoints: Breakpoints,
    /// Where commands begin: real addresses.
    pub code: BTreeSet<u32>,
    /// The line that an empty one repeats.
    last: String,
    /// Where a repeated `memory`, `show` or `list` goes on.
    pub onward: Option<u32>,
}

/// Why a line is not carried out.
#[derive(Debug)]
pub enum Fault {
    Say(String),
    Io(io::Error),
    Quit,
}

impl Fault {
    /// Leaves only what is wrong with the output.
    pub fn io(self) -> io::Result<()> {
        match self {
            Fault::Io(error) => Err(error),
            Fault::Say(_) | Fault::Quit => Ok(()),
        }
    }
}

impl From<io::Error> for Fault {
    fn from(error: io::Error) -> Fault {
        Fault::Io(error)
    }
}

impl From<String> for Fault {
    fn from(sentence: String) -> Fault {
        Fault::Say(sentence)
    }
}

pub type Done = Result<(), Fault>;
type Act = fn(&mut Session, &[&str], &mut dyn Write) -> Done;

/// A command: its names, the longest first; how it is written; what it does.
struct Row {
    names: &'static [&'static str],
    written: &'static str,
    text: &'static str,
    act: Act,
}

const fn row(names: &'static [&'static str], written: &'static str, text: &'static str, act: Act) -> Row {
    Row { names, written, text, act }
}

const ROWS: &[Row] = &[
    row(&["step", "s"], "step [N], s", "makes N steps (1) and shows each", moves::step),
    row(
        &["run", "r", "continue", "c"],
        "run [N], r, c",
        "runs on to a stop or a breakpoint, at most N steps (1,000,000)",
        moves::run,
    ),
    row(
        &["until", "u"],
        "until WHERE, u",
        "runs until the next command is at an address or name; to the next kernel entry: `until entry`, or `until entry:11` for one cause; to the end: `until stop`",
        moves::until,
    ),
    row(
        &["break", "b", "br", "breakpoint"],
        "break [PLACE], b",
        "sets a breakpoint before the command at an address or name; without one lists them",
        breakpoints::set,
    ),
    row(&["delete", "d"], "delete N, d", "deletes breakpoint N", breakpoints::delete),
    row(&["enable"], "enable N", "arms breakpoint N again", breakpoints::enable),
    row(&["disable"], "disable N", "switches breakpoint N off, so that it holds nothing", breakpoints::disable),
    row(&["undo", "back"], "undo [N], back", "undoes the last N steps or requests (1); it remembers 100,000", moves::undo),
    row(&["request"], "request LEVEL", "requests an interrupt level, 1 to 15", moves::request),
    row(&["where", "w"], "where, w", "shows how many steps are made and what is next", looks::place),
    row(&["registers"], "registers, i", "shows registers, mode, level, flags and blocks", looks::registers),
    row(&["memory", "x"], "memory [real] A [N], x", "shows N bytes (64) from an address on; x/N A shows N words", looks::memory),
    row(
        &["show"],
        "show PLACE KIND [N]",
        "shows floating numbers of a kind, F or D: that in a register, for D with the next one, or N (1) from an address on",
        floating::show,
    ),
    row(&["list", "l"], "list [A] [N], l", "lists N lines (10) of commands and data, around R15 or from an address on", listing::list),
    row(
        &["map"],
        "map [PROGRAM]",
        "shows a program's map in words; without a name that of the program that runs, in kernel mode of all",
        looks::map,
    ),
    row(&["blocks"], "blocks", "shows the system block and the control blocks, with the registers that they hold saved", looks::blocks),
    row(&["info", "i"], "info [WHAT], i", "shows registers, map, blocks or breakpoints", looks::info),
    row(&["help", "h", "?"], "help [COMMAND], h, ?", "lists the commands, or tells of one", help),
    row(&["quit", "q", "exit"], "quit, q", "ends the dialogue", quit),
];

/// The commands as the help shows them.
pub const COMMANDS: &[(&str, &str)] = &{
    let mut rows = [("", ""); ROWS.len()];
    let mut i = 0;
    while i < ROWS.len() {
        rows[i] = (ROWS[i].written, ROWS[i].text);
        i += 1;
    }
    rows
};

impl Session {
    pub fn new(mut machine: Machine) -> Session {
        if machine.known.programs.is_empty() {
            machine.known.programs = atlas::found_programs(&machine);
        }
        let code = code::known(&machine);
        let breakpoints = Breakpoints::default();
        Session { machine, history: History::new(), breakpoints, code, last: String::new(), onward: None }
    }

    /// Carries out a line.
    pub fn line(&mut self, line: &str, out: &mut dyn Write) -> Done {
        let line = line.trim();
        if line.starts_with('#') || line.starts_with("--") {
            return Ok(());
        }
        let line = match line.is_empty() {
            true => std::mem::take(&mut self.last),
            false => {
                self.onward = None;
                line.to_string()
            }
        };
        let spelled = in_words(&line);
        let words: Vec<&str> = spelled.split_whitespace().collect();
        let Some((name, arguments)) = words.split_first() else { return Ok(()) };
        let act = find(name).ok_or_else(|| unknown(name))?.act;
        let done = act(self, arguments, out);
        self.last = line;
        done
    }
}

/// Commands of other debuggers, and what there is here instead.
const ELSEWHERE: &[(&[&str], &str)] = &[
    (&["tbreak", "advance"], "`until WHERE` runs to an address, a name or a kernel entry; it holds once"),
    (&["catch"], "`until entry` runs to the next kernel entry, `until entry:11` to one of that cause"),
    (&["watch", "rwatch", "awatch"], "`break PLACE` holds before a command; no access to memory holds a run"),
    (&["clear"], "`delete N` deletes a breakpoint, `break` lists them"),
    (&["condition", "ignore", "commands"], "a breakpoint holds whenever it is armed; `disable N` switches it off"),
    (&["print", "p", "display", "inspect"], "`registers` shows registers, `memory A` memory, `show A F` floating numbers, `list A` commands"),
    (
        &["set", "assign", "poke", "write"],
        "state is changed by steps and undone by `undo`, nothing else; to change the program, change its source; `break PLACE` sets a breakpoint",
    ),
    (
        &["next", "n", "stepi", "si", "nexti", "ni"],
        "`step` makes one step; `until` with the address behind a CALL steps over it",
    ),
    (&["finish", "fin", "return", "up", "down"], "`until` with the address behind the CALL goes back to the caller"),
    (
        &["backtrace", "bt"],
        "the desk keeps no list of calls; `where` shows what is next, `registers` where the stack is (SP)",
    ),
    (&["disassemble", "disas", "dis"], "`list [A] [N]` lists commands"),
    (
        &["start", "restart", "kill", "k", "load", "file"],
        "`undo 100000` goes back to the start; another file needs another `desk debug`",
    ),
    (&["reverse-step", "rs", "reverse-continue", "rc", "reverse-stepi"], "`undo [N]` goes back"),
    (
        &["symbols", "names", "source", "frame", "f"],
        "`desk list FILE` lists all with its names; `where` shows what is next",
    ),
];

fn unknown(name: &str) -> String {
    if let Some((_, words)) = ELSEWHERE.iter().find(|(names, _)| names.contains(&name)) {
        return format!("there is no command '{name}' here: {words}");
    }
    let names = ROWS.iter().flat_map(|row| row.names).filter(|name| name.len() > 2).copied();
    let name_shown = options::shown(name);
    match options::nearest(name, names) {
        Some(meant) => format!("there is no command '{name_shown}'; did you mean {meant}? `help` lists them"),
        None => format!("there is no command '{name_shown}'; `help` lists them"),
    }
}

/// `x/4 410h`, as gdb has it, is `x 410h 16`.
fn in_words(line: &str) -> String {
    let parts = line.split_once('/').and_then(|(name, rest)| {
        let (words, place) = rest.split_once(' ')?;
        let words = words.trim_end_matches(char::is_alphabetic).parse::<u32>().ok()?;
        find(name)
            .is_some_and(|row| row.names.contains(&"x"))
            .then(|| format!("{name} {place} {}", u64::from(words) * 4))
    });
    parts.unwrap_or_else(|| line.to_string())
}

fn find(name: &str) -> Option<&'static Row> {
    ROWS.iter().find(|row| row.names.contains(&name))
}

fn help(_: &mut Session, arguments: &[&str], out: &mut dyn Write) -> Done {
    let rows: Vec<(&str, &str)> = match arguments.first() {
        None => COMMANDS.to_vec(),
        Some(name) => find(name).map(|row| vec![(row.written, row.text)]).ok_or_else(|| unknown(name))?,
    };
    let width = rows.iter().map(|(written, _)| written.len()).max().unwrap_or(0);
    for (written, text) in rows {
        for line in crate::help::row(written, text, width) {
            writeln!(out, "{line}")?;
        }
    }
    if arguments.is_empty() {
        writeln!(out, "  An empty line repeats the one before it; -- and # start a remark.")?;
        writeln!(out, "  Ctrl-C ends all of desk, also in a long run; Ctrl-D is quit.")?;
    }
    Ok(())
}

fn quit(_: &mut Session, _: &[&str], _: &mut dyn Write) -> Done {
    Err(Fault::Quit)
}

/// No arguments are left.
pub fn nothing_more(arguments: &[&str]) -> Result<(), String> {
    match arguments.first() {
        None => Ok(()),
        Some(extra) => Err(format!("'{}' is one word too many", options::shown(extra))),
    }
}

/// An argument that counts something, if there is one.
pub fn count(argument: Option<&&str>) -> Result<Option<u64>, String> {
    let number = |text: &&str| {
        options::count(text).ok_or_else(|| format!("'{}' is no number such as 20 or 14h", options::shown(text)))
    };
    argument.map(number).transpose()
}

#[cfg(test)]
mod tests {
    use super::*;

    #[test]
    fn every_name_is_once_and_is_written() {
        let mut names: Vec<&str> = ROWS.iter().flat_map(|row| row.names).copied().collect();
        let all = names.len();
        names.sort_unstable();
        names.dedup();
        assert_eq!(names.len(), all);
        assert!(ROWS.iter().all(|row| row.written.starts_with(row.names[0])));
        let elsewhere = ELSEWHERE.iter().flat_map(|(names, _)| *names);
        assert!(elsewhere.into_iter().all(|name| find(name).is_none()));
    }
}
