//! Commands for breakpoints: break, delete, enable, disable.

use super::commands::{count, nothing_more, Done, Session};
use crate::place::Place;
use midesk::numbers::MAX_BREAKPOINTS;
use midesk::Refusal;
use std::io::Write;

/// Sets one; without a place lists them.
pub fn set(session: &mut Session, arguments: &[&str], out: &mut dyn Write) -> Done {
    let Some((text, rest)) = arguments.split_first() else { return list(session, out) };
    nothing_more(rest)?;
    let known = &session.machine.known;
    let place = Place::of(text, known).ok_or_else(|| known.no_address(text))?;
    if let Some(there) = session.breakpoints.iter().find(|breakpoint| breakpoint.place == place) {
        writeln!(out, "there already, {}: {}", state(there.armed), there.words(known))?;
        return Ok(());
    }
    if session.breakpoints.len() >= MAX_BREAKPOINTS {
        let number = Refusal::Breakpoints.number();
        let words = format!("refusal {number}: a run has at most {MAX_BREAKPOINTS} breakpoints; `delete N` makes room");
        return Err(words.into());
    }
    let doubt = place.doubt(&session.machine, &session.code);
    writeln!(out, "{}", session.breakpoints.set(place, doubt).words(known))?;
    Ok(())
}

/// All of them, a line each.
pub fn list(session: &Session, out: &mut dyn Write) -> Done {
    for breakpoint in session.breakpoints.iter() {
        writeln!(out, "{:5}  {}", state(breakpoint.armed), breakpoint.words(&session.machine.known))?;
    }
    if session.breakpoints.is_empty() {
        writeln!(out, "there are no breakpoints; `break PLACE` sets one")?;
    }
    Ok(())
}

fn state(armed: bool) -> &'static str {
    match armed {
        true => "armed",
        false => "off",
    }
}

pub fn delete(session: &mut Session, arguments: &[&str], out: &mut dyn Write) -> Done {
    let number = number(session, arguments)?;
    session.breakpoints.delete(number);
    writeln!(out, "breakpoint {number} is deleted")?;
    Ok(())
}

pub fn enable(session: &mut Session, arguments: &[&str], out: &mut dyn Write) -> Done {
    arm(session, arguments, true, out)
}

pub fn disable(session: &mut Session, arguments: &[&str], out: &mut dyn Write) -> Done {
    arm(session, arguments, false, out)
}

fn arm(session: &mut Session, arguments: &[&str], armed: bool, out: &mut dyn Write) -> Done {
    let number = number(session, arguments)?;
    session.breakpoints.arm(number, armed);
    writeln!(out, "breakpoint {number} is {}", state(armed))?;
    Ok(())
}

/// The number of a breakpoint that there is.
fn number(session: &Session, arguments: &[&str]) -> Result<u32, String> {
    let number = count(arguments.first())?.ok_or_else(|| "which breakpoint? `break` lists them".to_string())?;
    nothing_more(arguments.get(1..).unwrap_or_default())?;
    let there = session.breakpoints.iter().find(|breakpoint| u64::from(breakpoint.number) == number);
    there
        .map(|breakpoint| breakpoint.number)
        .ok_or_else(|| format!("there is no breakpoint {number}; `break` lists them"))
}
