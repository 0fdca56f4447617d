//! A load list in words: a line for each command, what it puts all in all, and what the library says to it.

use super::commands::{self, Action, Command, MOST_PIECES};
use super::covered::Covered;
use super::{lines, memory, written};
use crate::{setup, words};
use std::io::{self, Write};

/// Writes the list in words, and answers with the exit status: 0 where a memory of this length, or of the least that it
/// needs, takes it.
pub fn show(out: &mut dyn Write, title: &str, list: &[u8], length: Option<usize>) -> io::Result<u8> {
    writeln!(out, "-- {title}: {}\n", written::bytes(list.len() as u64))?;
    let mut totals = Totals::default();
    for command in commands::commands(list) {
        match command {
            Ok(command) => {
                let remark = if totals.add(&command) { ", over an earlier put" } else { "" };
                writeln!(out, "{}", lines::of_command(&command, remark))?;
            }
            Err(malformed) => writeln!(out, "{}", lines::of_damage(list, malformed))?,
        }
    }
    let answer = memory::memory(list, length);
    writeln!(out, "\n{}", totals.words(answer.is_ok()))?;
    ranges(out, &totals.covered)?;
    match answer {
        Ok(memory) => {
            let least = if length.is_none() { ", the shortest that holds it" } else { "" };
            writeln!(out, "it loads into a memory of {}{least}", written::length(memory.len()))?;
            Ok(0)
        }
        Err(refused) => {
            refusal(out, &refused.words(), refused.hint())?;
            Ok(setup::refusal_status(refused.refusal))
        }
    }
}

/// Ranges of addresses, a line for each.
pub(super) fn ranges(out: &mut dyn Write, covered: &Covered) -> io::Result<()> {
    for (from, to) in covered.ranges() {
        writeln!(out, "  {}: {}", written::range(from, to), written::bytes(to - from))?;
    }
    Ok(())
}

/// A refusal in lines that fit, and below it where to look.
pub(super) fn refusal(out: &mut dyn Write, said: &str, hint: Option<String>) -> io::Result<()> {
    let hint = hint.map(|hint| words::folded(&hint, 2, 4));
    for line in words::folded(said, 0, 2).into_iter().chain(hint.into_iter().flatten()) {
        writeln!(out, "{line}")?;
    }
    Ok(())
}

/// What the pieces put. Where there are more than a list may have, `covered` is that of the first ones.
#[derive(Default)]
pub(super) struct Totals {
    pieces: u64,
    bytes: u64,
    pub(super) covered: Covered,
}

impl Totals {
    /// Those of a list, up to what makes it none.
    pub(super) fn of(list: &[u8]) -> Totals {
        let mut totals = Totals::default();
        for command in commands::commands(list).map_while(Result::ok) {
            totals.add(&command);
        }
        totals
    }

    /// Adds a command; answers whether it puts a byte where an earlier one has put one.
    fn add(&mut self, command: &Command) -> bool {
        let Action::Put(put) = command.action else { return false };
        self.pieces = put.piece;
        self.bytes = self.bytes.saturating_add(put.count());
        put.piece <= MOST_PIECES && put.count() > 0 && self.covered.add(put.place, put.end())
    }

    /// `35 pieces put 173 bytes at 168 addresses:`.
    pub(super) fn words(&self, loads: bool) -> String {
        let put = match (loads, self.pieces) {
            (false, _) => "would put",
            (true, 1) => "puts",
            (true, _) => "put",
        };
        let all = format!("{} {put} {}", words::counted(self.pieces, "piece", "pieces"), written::bytes(self.bytes));
        let first = match self.pieces > MOST_PIECES {
            true => format!(", the first {}", words::count(MOST_PIECES)),
            false => String::new(),
        };
        match self.covered.count() {
            0 => all,
            count => format!("{all}{first} at {}:", words::counted(count, "address", "addresses")),
        }
    }
}
