//! Speed of the proved desk beside plain Rust, the model and simh's VAX; of the proved loads, of a list and of two, and
//! of runs with breakpoints, beside plain Rust.

mod breakpoint_runs;
mod breakpoints;
mod check;
mod clock;
mod contender;
#[cfg(test)]
mod float_places;
#[cfg(test)]
mod float_values;
mod layout;
mod lists;
mod loader;
mod loops;
mod measure;
mod options;
mod pairs;
mod plain;
mod programs;
mod proved;
#[cfg(test)]
mod random;
#[cfg(test)]
mod random_breakpoints;
#[cfg(test)]
mod random_floats;
#[cfg(test)]
mod random_lists;
#[cfg(test)]
mod random_pairs;
mod simh;
mod state;
mod table;
#[cfg(test)]
mod trial;
mod vax;

use breakpoints::Breakpoints;
use contender::Contender;
use layout::Bench;
use lists::Lists;
use loader::Loader;
use loops::{Loop, LENGTHS};
use measure::Wanted;
use options::Options;
use pairs::Pairs;
use std::process::ExitCode;

fn main() -> ExitCode {
    let done = options::parse(std::env::args().skip(1)).and_then(|options| match options {
        Options::Commands { which, breakpoints, contender, count } => run_once(which, breakpoints, contender, count),
        Options::Loads { kind, loader, count } => load_once(kind, loader, count),
        Options::Calls { kind, loader, count } => load_both_once(kind, loader, count),
        Options::Tables { wanted, rounds } => print_tables(&wanted, rounds),
    });
    match done {
        Ok(()) => ExitCode::SUCCESS,
        Err(message) => {
            eprintln!("bench: {message}");
            ExitCode::FAILURE
        }
    }
}

/// One loop, once, for a profiler.
fn run_once(which: Loop, breakpoints: Option<Breakpoints>, contender: Contender, count: u64) -> Result<(), String> {
    let mut bench = Bench::new(which, LENGTHS[0]);
    let points = breakpoints.map(|kind| kind.points(which.kind));
    let seconds = measure::slice(&mut bench, contender, points.as_deref(), count)?;
    let speed = count as f64 / seconds / 1e6;
    let with = breakpoints.map_or(String::new(), |kind| format!(", breakpoints {}", kind.name()));
    println!("{} {}{with}: {count} commands, {seconds:.3} s, {speed:.1} M/s", contender.name(), which.name());
    Ok(())
}

/// So many loads, once, for a profiler.
fn load_once(kind: Lists, loader: Loader, count: usize) -> Result<(), String> {
    let (seconds, put) = measure::loads(&mut vec![0; LENGTHS[0]], loader, &kind.lists(), count)?;
    let speed = put as f64 / seconds / 1e6;
    println!("{} {}: {count} loads, {put} bytes, {seconds:.3} s, {speed:.1} M/s", loader.name(), kind.name());
    Ok(())
}

/// So many calls that load two lists, once, for a profiler.
fn load_both_once(kind: Pairs, loader: Loader, count: usize) -> Result<(), String> {
    let (mut memory, mut scratch) = (vec![0; pairs::LENGTH], vec![0; pairs::LENGTH]);
    let (seconds, put) = measure::calls(&mut memory, &mut scratch, loader, &kind.pairs(), count)?;
    let each = seconds / count as f64 * 1e3;
    println!("{} {}: {count} calls, {put} bytes, {seconds:.3} s, {each:.2} ms each", loader.name(), kind.name());
    Ok(())
}

fn print_tables(wanted: &Wanted, rounds: Option<usize>) -> Result<(), String> {
    for which in &wanted.loops {
        for length in which.lengths() {
            check::check(*which, *length)?;
        }
    }
    for kind in &wanted.lists {
        check::check_lists(*kind)?;
    }
    for kind in &wanted.pairs {
        check::check_pairs(*kind)?;
    }
    for which in &wanted.breakpoint_loops {
        for kind in &wanted.breakpoints {
            check::check_breakpoints(*which, *kind)?;
        }
    }
    let simulators = if wanted.loops.is_empty() { vec![] } else { simh::installed() };
    let results = measure::measure(wanted, &simulators, rounds)?;
    table::print_all(&results, &simulators);
    Ok(())
}
