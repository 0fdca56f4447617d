//! Plays the stored cases on every wrong copy of the model: `faults FILE`. Ends
//! with 1 if a copy isn't told apart, or if the model itself differs from the file.
//! `faults --check` only looks whether every edit in `faults/` applies.

use model::faults::{copies, edits, of_model, Tally};
use std::path::Path;

fn main() {
    let argument = std::env::args().nth(1).unwrap_or_else(|| fail("usage: faults FILE | --check"));
    let faults = edits::applied().unwrap_or_else(|why| fail(&why));
    if argument == "--check" {
        println!("{} edits for wrong copies apply", faults.len());
        return;
    }
    let cases = Path::new(&argument);
    let (right, all) = of_model(cases);
    println!("{right:5}  the model itself (must be 0)");
    let sources = edits::sources().unwrap_or_else(|why| fail(&why));
    let told = copies::tell(&sources, &faults, cases).unwrap_or_else(|why| fail(&why));
    let mut missed = Vec::new();
    for (fault, _) in &faults {
        let Tally { cases, panics } = told.get(&fault.name).copied().unwrap_or_default();
        let remark = if panics > 0 { format!(" ({panics} by a panic)") } else { String::new() };
        println!("{cases:5}  {}: {}{remark}", fault.name, fault.text);
        if cases == 0 {
            missed.push(&fault.name);
        }
    }
    println!("{} wrong copies, {} told apart, {all} cases", faults.len(), faults.len() - missed.len());
    if right != 0 || !missed.is_empty() {
        println!("not told apart: {missed:?}");
        std::process::exit(1);
    }
}

fn fail(why: &str) -> ! {
    eprintln!("{why}");
    std::process::exit(1);
}
