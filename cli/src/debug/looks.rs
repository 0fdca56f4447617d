//! Commands that show: where, registers, memory, map, blocks.

use super::breakpoints;
use super::commands::{count, nothing_more, Done, Session};
use crate::atlas::Atlas;
use crate::blocks as blocks_;
use crate::dump;
use crate::effect;
use crate::hints;
use crate::machine::due;
use crate::map as map_;
use crate::notation::hexadecimal;
use crate::options;
use crate::plan::DUMP;
use crate::report;
use crate::view;
use crate::words;
use midesk::Mark;
use std::io::Write;

/// Bytes that are shown at most.
const MOST: u64 = 65_536;

pub fn place(session: &mut Session, arguments: &[&str], out: &mut dyn Write) -> Done {
    nothing_more(arguments)?;
    if let Mark::Stopped(number) = session.machine.desk.mark() {
        return session.stopped(number, out);
    }
    writeln!(out, "{} made", words::steps(session.machine.steps))?;
    next(session, out)
}

/// What the next step does.
pub fn next(session: &Session, out: &mut dyn Write) -> Done {
    let desk = &session.machine.desk;
    match (desk.mark(), due(desk)) {
        (Mark::Stopped(number), _) => {
            let finding = report::behind(desk, &session.machine.memory, number);
            writeln!(out, "stopped with {number}: {}", report::stop(number, finding))?;
        }
        (_, Some(level)) => writeln!(out, "next: an interrupt of level {level}")?,
        _ => writeln!(out, "next: {}", report::commanded(&session.machine, desk))?,
    }
    Ok(())
}

pub fn registers(session: &mut Session, arguments: &[&str], out: &mut dyn Write) -> Done {
    nothing_more(arguments)?;
    for line in report::state(&session.machine.known, &session.machine.desk) {
        writeln!(out, "{line}")?;
    }
    Ok(())
}

/// `info registers`, `info map`, `info blocks`, `info breakpoints`, as gdb has it.
pub fn info(session: &mut Session, arguments: &[&str], out: &mut dyn Write) -> Done {
    match arguments.split_first() {
        None | Some((&("registers" | "r"), [])) => registers(session, &[], out),
        Some((&"map", rest)) => map(session, rest, out),
        Some((&"blocks", rest)) => blocks(session, rest, out),
        Some((&("breakpoints" | "break" | "b"), [])) => breakpoints::list(session, out),
        Some((other, _)) => {
            Err(format!("there is no info '{}': registers, map, blocks or breakpoints", options::shown(other)).into())
        }
    }
}

/// What `memory` is to show: the first address, and whether it is a real one.
pub fn shown_from(session: &Session, text: &str, real: bool) -> Result<(u32, bool), String> {
    let machine = &session.machine;
    let names = machine.known.names(&machine.desk);
    if !real && !machine.desk.is_kernel() {
        if let Some(address) = options::address(text, names) {
            return Ok((address, false));
        }
    }
    let address = machine.known.real_address(&machine.memory, text);
    address.map(|address| (address, true)).ok_or_else(|| machine.known.no_address(text))
}

pub fn memory(session: &mut Session, arguments: &[&str], out: &mut dyn Write) -> Done {
    let (real, arguments) = match arguments.split_first() {
        Some((&"real", rest)) => (true, rest),
        _ => (false, arguments),
    };
    let Some(text) = arguments.first() else {
        return Err("memory from where? An address, such as 410h, or a name".to_string().into());
    };
    let n = count(arguments.get(1))?.unwrap_or(u64::from(DUMP)).min(MOST) as u32;
    nothing_more(arguments.get(2..).unwrap_or_default())?;
    let (from, real) = shown_from(session, text, real)?;
    let from = session.onward.unwrap_or(from);
    let bytes = bytes(session, from, real, n);
    rows(session, from, real, &bytes, dump::rows(from, &bytes), out)?;
    session.onward = Some(from.wrapping_add(n));
    Ok(())
}

/// Bytes from an address on, which may be a real one.
pub fn bytes(session: &Session, from: u32, real: bool, n: u32) -> Vec<Option<u8>> {
    let machine = &session.machine;
    let byte = |i: u32| match real {
        true => view::byte(&machine.memory, from.wrapping_add(i)),
        false => effect::byte(&machine.desk, &machine.memory, from.wrapping_add(i)),
    };
    (0..n).map(byte).collect()
}

/// Writes the rows of some bytes, and why one of them cannot be read.
pub fn rows(
    session: &Session,
    from: u32,
    real: bool,
    bytes: &[Option<u8>],
    rows: Vec<String>,
    out: &mut dyn Write,
) -> Done {
    let machine = &session.machine;
    if real && !machine.desk.is_kernel() {
        writeln!(out, "real addresses:")?;
    }
    for row in rows {
        writeln!(out, "{row}")?;
    }
    if let Some(first) = bytes.iter().position(Option::is_none) {
        let at = from.wrapping_add(first as u32);
        let why = match real {
            true => format!("the memory ends at {}", hexadecimal(machine.memory.len() as u32)),
            false => hints::entry(&machine.known, &machine.memory, &machine.desk, at),
        };
        writeln!(out, "{} cannot be read: {why}", hexadecimal(at))?;
    }
    Ok(())
}

pub fn map(session: &mut Session, arguments: &[&str], out: &mut dyn Write) -> Done {
    nothing_more(arguments.get(1..).unwrap_or_default())?;
    let machine = &session.machine;
    let atlas = Atlas::of(machine, machine);
    let running = (!machine.desk.is_kernel()).then(|| machine.desk.control_block());
    let shown: Vec<usize> = match (arguments.first(), running) {
        (Some(name), _) => {
            (0..atlas.programs.len()).filter(|i| atlas.programs.get(*i).is_some_and(|p| p.name == **name)).collect()
        }
        (None, Some(block)) => (0..atlas.programs.len())
            .filter(|i| atlas.programs.get(*i).is_some_and(|p| p.control_block == block))
            .collect(),
        (None, None) => (0..atlas.programs.len()).collect(),
    };
    if shown.is_empty() {
        let names: Vec<&str> = atlas.programs.iter().map(|program| program.name.as_str()).collect();
        let known =
            if names.is_empty() { "none is known".to_string() } else { format!("there are {}", names.join(", ")) };
        return Err(format!("there is no such program; {known}").into());
    }
    for line in shown.iter().flat_map(|place| map_::program(machine, &atlas, *place)) {
        writeln!(out, "{}", line.trim_end())?;
    }
    Ok(())
}

pub fn blocks(session: &mut Session, arguments: &[&str], out: &mut dyn Write) -> Done {
    nothing_more(arguments)?;
    let machine = &session.machine;
    let known = &machine.known;
    let mut lines = blocks_::entries(known, &machine.memory, machine.desk.system_block());
    for program in &known.programs {
        lines.extend(blocks_::control(
            known,
            &machine.memory,
            program.control_block,
            &format!("program {}", program.name),
        ));
    }
    let present = machine.desk.control_block();
    if known.programs.iter().all(|program| program.control_block != present) {
        lines.extend(blocks_::control(known, &machine.memory, present, "the desk"));
    }
    for line in lines {
        writeln!(out, "{line}")?;
    }
    Ok(())
}
