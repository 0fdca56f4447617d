//! `desk run FILE`: runs a program and says how it ended.

use crate::engine;
use crate::json::Json;
use crate::machine::Machine;
use crate::options;
use crate::output;
use crate::plan::Plan;
use crate::setup;
use crate::show::Show;
use midesk::Refusal;
use std::io::{self, BufWriter, Write};

/// `desk run FILE [OPTION]..`.
pub fn main(arguments: &[String]) -> u8 {
    match begun(arguments) {
        Ok((machine, plan)) => run(machine, &plan),
        Err(status) if status != 0 && arguments.iter().any(|argument| argument == "--json") => error(status),
        Err(status) => status,
    }
}

/// The machine and what it shall do; else the exit status, after a sentence.
fn begun(arguments: &[String]) -> Result<(Machine, Plan), u8> {
    let given = options::take("run", arguments)?;
    let mut machine = setup::machine("run", &given)?;
    let plan = Plan::of(&given, &machine).map_err(|sentence| options::usage("run", &sentence))?;
    // A run of no steps changes nothing and makes all checks.
    let breakpoints = plan.breakpoints.of_library();
    match machine.desk.run_to(&mut machine.memory, 0, &breakpoints) {
        Err(refusal @ Refusal::Breakpoints) => {
            Err(setup::refused("run", refusal, &format!("--break is given {} times", breakpoints.len())))
        }
        _ => Ok((machine, plan)),
    }
}

fn run(mut machine: Machine, plan: &Plan) -> u8 {
    let mut out = BufWriter::new(io::stdout().lock());
    let mut show = Show::new(plan, &mut out);
    let done = engine::run(&mut machine, plan, &mut show).and_then(|ran| show.end(&machine, plan, &ran));
    match done.and_then(|status| out.flush().map(|()| status)) {
        Ok(status) => status,
        Err(_) => output::CANNOT_WRITE,
    }
}

/// The object of a run that could not begin.
fn error(status: u8) -> u8 {
    let object = Json::Object(vec![
        ("end", Json::text("error")),
        ("exit", Json::word(u32::from(status))),
        ("words", Json::text(output::said().trim_end())),
    ]);
    match output::out(&format!("{}\n", object.line())) {
        true => status,
        false => output::CANNOT_WRITE,
    }
}
