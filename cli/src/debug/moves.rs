//! Commands that move the desk: step, run, until, undo, request.

use super::commands::{count, nothing_more, Done, Fault, Session};
use super::looks;
use crate::machine::Step;
use crate::plan::{self, Until};
use crate::report::{self, End};
use crate::trace;
use crate::words;
use midesk::{Event, Refusal};
use std::io::Write;

/// Steps of a `run` or `until` without a number.
const LIMIT: u64 = 1_000_000;
/// What is said where older steps cannot be undone.
const FORGOTTEN: &str = "the steps before are not remembered; only the last 100,000 are";

impl Session {
    /// A step that can be undone.
    fn one(&mut self) -> Result<Step, String> {
        let step = self.machine.step().map_err(|refusal| refused(self, refusal))?;
        self.history.step(&step);
        Ok(step)
    }

    /// Whether a breakpoint holds the desk before its next step, which is said.
    fn is_held(&self, out: &mut dyn Write) -> Result<bool, Fault> {
        let machine = &self.machine;
        let Some(breakpoint) = self.breakpoints.holding(&machine.desk) else { return Ok(false) };
        let end = breakpoint.end(&machine.known, &machine.desk);
        writeln!(out, "{}", report::headline(machine, &end, None))?;
        looks::next(self, out)?;
        Ok(true)
    }

    fn show(&self, step: &Step, out: &mut dyn Write) -> std::io::Result<()> {
        for line in trace::lines(&self.machine.known, &self.machine.memory, step) {
            writeln!(out, "{line}")?;
        }
        Ok(())
    }

    /// A stop in words.
    pub fn stopped(&self, number: u32, out: &mut dyn Write) -> Done {
        let end = End::Stopped(number);
        let finding = report::finding(&self.machine, &end);
        writeln!(out, "{}", report::headline(&self.machine, &end, finding))?;
        for line in report::notes(&self.machine, &end, finding).iter().flat_map(|note| words::folded(note, 2, 4)) {
            writeln!(out, "{line}")?;
        }
        Ok(())
    }
}

fn refused(session: &Session, refusal: Refusal) -> String {
    match refusal {
        Refusal::Stopped => "the desk has stopped; `undo` goes back".to_string(),
        _ => format!("refusal {} after {}: {refusal}", refusal.number(), words::steps(session.machine.steps)),
    }
}

pub fn step(session: &mut Session, arguments: &[&str], out: &mut dyn Write) -> Done {
    let n = count(arguments.first())?.unwrap_or(1);
    nothing_more(arguments.get(1..).unwrap_or_default())?;
    for made in 0..n {
        if made > 0 && session.is_held(out)? {
            return Ok(());
        }
        let step = session.one()?;
        session.show(&step, out)?;
        if let Event::Stopped(number) = step.event {
            return session.stopped(number, out);
        }
    }
    looks::next(session, out)
}

pub fn run(session: &mut Session, arguments: &[&str], out: &mut dyn Write) -> Done {
    let n = count(arguments.first())?.unwrap_or(LIMIT);
    nothing_more(arguments.get(1..).unwrap_or_default())?;
    go(session, n, None, out)
}

/// Runs until something is reached, if that is asked for; that step is shown. A breakpoint holds it before.
fn go(session: &mut Session, n: u64, until: Option<&Until>, out: &mut dyn Write) -> Done {
    for made in 0..n {
        if made > 0 && session.is_held(out)? {
            return Ok(());
        }
        let step = session.one()?;
        if let Event::Stopped(number) = step.event {
            session.stopped(number, out)?;
            return not_held(session, until, &End::Stopped(number), out);
        }
        if until.is_some_and(|until| is_reached(until, session, &step)) {
            session.show(&step, out)?;
            return looks::next(session, out);
        }
    }
    writeln!(out, "made {} without an end", words::steps(n))?;
    not_held(session, until, &End::Limit, out)?;
    looks::next(session, out)
}

/// Why an `until` ended elsewhere.
fn not_held(session: &Session, until: Option<&Until>, end: &End, out: &mut dyn Write) -> Done {
    let machine = &session.machine;
    let finding = report::finding(machine, end);
    if let Some(words) = until.and_then(|until| until.not_held(&machine.known, end, finding)) {
        for line in words::folded(&words, 2, 4) {
            writeln!(out, "{line}")?;
        }
    }
    Ok(())
}

pub fn until(session: &mut Session, arguments: &[&str], out: &mut dyn Write) -> Done {
    let Some((first, rest)) = arguments.split_first() else {
        return Err("until what? An address, a name, `entry`, `entry:11` or `stop`".to_string().into());
    };
    nothing_more(rest)?;
    if *first == "stop" {
        return run(session, &[], out);
    }
    let until = plan::until(first, &session.machine.known)?;
    go(session, LIMIT, Some(&until), out)
}

fn is_reached(until: &Until, session: &Session, step: &Step) -> bool {
    match (until, step.event) {
        (Until::Entry(wanted), Event::Entered(cause)) => wanted.is_none_or(|wanted| wanted == cause),
        (Until::Entry(_), _) => false,
        (Until::Place(place), _) => place.is_at(&session.machine.desk),
    }
}

pub fn undo(session: &mut Session, arguments: &[&str], out: &mut dyn Write) -> Done {
    let n = count(arguments.first())?.unwrap_or(1);
    nothing_more(arguments.get(1..).unwrap_or_default())?;
    if n == 0 {
        return Err("undo how many steps? At least 1".to_string().into());
    }
    let undone = session.history.undo(&mut session.machine, n);
    let steps = (undone.steps > 0).then(|| words::steps(undone.steps));
    let requests = match undone.requests {
        0 => None,
        1 => Some("1 request".to_string()),
        requests => Some(format!("{} requests", words::count(requests))),
    };
    let words: Vec<String> = steps.into_iter().chain(requests).collect();
    match words.is_empty() {
        true if session.history.is_whole() => {
            return Err("there is nothing to undo: this is the start".to_string().into());
        }
        true => return Err(FORGOTTEN.to_string().into()),
        false => writeln!(out, "undone: {}", words.join(" and "))?,
    }
    if undone.steps + undone.requests < n {
        match session.history.is_whole() {
            true => writeln!(out, "this is the start")?,
            false => writeln!(out, "{FORGOTTEN}")?,
        }
    }
    looks::next(session, out)
}

pub fn request(session: &mut Session, arguments: &[&str], out: &mut dyn Write) -> Done {
    let level = count(arguments.first())?.ok_or_else(|| "which level? One from 1 to 15".to_string())?;
    nothing_more(arguments.get(1..).unwrap_or_default())?;
    let before = session.machine.desk.clone();
    let level = u32::try_from(level).unwrap_or(u32::MAX);
    session.machine.desk.request(level).map_err(|refusal| format!("refusal {}: {refusal}", refusal.number()))?;
    session.history.request(before);
    let levels: Vec<String> = report::levels(&session.machine.desk).iter().map(u32::to_string).collect();
    writeln!(out, "pending: level {}", levels.join(", "))?;
    looks::next(session, out)
}
