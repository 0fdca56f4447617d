//! `desk debug FILE`: plain lines in, plain lines out, over a desk that can also go back.

mod breakpoints;
mod commands;
mod floating;
mod history;
mod listing;
mod looks;
mod moves;

pub use commands::COMMANDS;

use crate::machine::Machine;
use crate::options;
use crate::output;
use crate::setup;
use commands::{Fault, Session};
use std::io::{self, BufRead, BufReader, BufWriter, IsTerminal, Write};

const PROMPT: &str = "desk> ";
/// Letters of the longest line that is looked at.
const LONGEST: usize = 1000;

/// `desk debug FILE [OPTION]..`.
pub fn main(arguments: &[String]) -> u8 {
    let given = match options::take("debug", arguments) {
        Ok(given) => given,
        Err(status) => return status,
    };
    let machine = match setup::machine("debug", &given) {
        Ok(machine) => machine,
        Err(status) => return status,
    };
    let mut out = BufWriter::new(io::stdout().lock());
    let echo = given.has("--echo");
    let ended = match given.value("--script") {
        None => {
            let terminal = io::stdin().is_terminal();
            let place = if terminal { Place::Prompt } else { Place::Lines("line ".to_string()) };
            dialogue(machine, &mut io::stdin().lock(), &mut out, place, echo)
        }
        Some(script) => match std::fs::File::open(script) {
            Ok(file) => {
                let place = Place::Lines(format!("{}:", options::clean(script)));
                dialogue(machine, &mut BufReader::new(file), &mut out, place, echo)
            }
            Err(error) => {
                output::err(&format!("{}: cannot be read: {}\n", options::shown(script), output::reason(&error)));
                return output::NO_INPUT;
            }
        },
    };
    match ended.and_then(|status| out.flush().map(|()| status)) {
        Ok(status) => status,
        Err(_) => output::CANNOT_WRITE,
    }
}

/// Where lines come from.
#[derive(Clone, PartialEq, Eq, Debug)]
pub enum Place {
    /// A terminal, which gets a prompt.
    Prompt,
    /// A file or a pipe; messages name the line, behind these words.
    Lines(String),
}

/// Takes lines until `quit` or their end; answers with the exit status.
pub fn dialogue(
    machine: Machine,
    lines: &mut dyn BufRead,
    out: &mut dyn Write,
    place: Place,
    echo: bool,
) -> io::Result<u8> {
    let mut session = Session::new(machine);
    let mut faults = false;
    if place == Place::Prompt {
        session.line("where", out).or_else(Fault::io)?;
        writeln!(out, "`help` lists the commands.")?;
    }
    for number in 1_u64.. {
        if place == Place::Prompt {
            write!(out, "{PROMPT}")?;
            out.flush()?;
        }
        let Some(line) = next_line(lines)? else { break };
        if echo && place != Place::Prompt {
            writeln!(out, "{}", format!("{PROMPT}{}", options::clean(&line)).trim_end())?;
        }
        match session.line(&line, out) {
            Ok(()) => {}
            Err(Fault::Quit) => return Ok(if faults { output::BAD_INPUT } else { 0 }),
            Err(Fault::Io(error)) => return Err(error),
            Err(Fault::Say(sentence)) => match &place {
                Place::Prompt => writeln!(out, "{sentence}")?,
                Place::Lines(before) => {
                    faults = true;
                    writeln!(out, "{before}{number}: {sentence}")?;
                }
            },
        }
    }
    if place == Place::Prompt {
        writeln!(out)?;
    }
    Ok(if faults { output::BAD_INPUT } else { 0 })
}

/// The next line, cut after `LONGEST` letters; none at the end.
fn next_line(lines: &mut dyn BufRead) -> io::Result<Option<String>> {
    let mut bytes = Vec::new();
    if lines.read_until(b'\n', &mut bytes)? == 0 {
        return Ok(None);
    }
    let text = String::from_utf8_lossy(&bytes);
    Ok(Some(text.trim().chars().take(LONGEST).collect()))
}
