//! `desk VERB ..`: finds the verb. Each verb is a module with a `main` that takes its arguments and gives the exit status.

use desk::{asm, debug, help, list, load, map, output, picture, run};
use std::process::ExitCode;

type Verb = fn(&[String]) -> u8;

const VERBS: &[(&str, Verb)] = &[
    ("asm", asm::main),
    ("debug", debug::main),
    ("help", help::main),
    ("list", list::main),
    ("load", load::main),
    ("map", map::main),
    ("picture", picture::main),
    ("run", run::main),
];

fn main() -> ExitCode {
    let arguments: Vec<String> = std::env::args_os().skip(1).map(|a| a.to_string_lossy().into_owned()).collect();
    let Some((first, rest)) = arguments.split_first() else {
        return ExitCode::from(help::main(&[]));
    };
    let (wanted, rest) = match first.as_str() {
        "--help" | "-h" => ("help", rest),
        "--version" => ("help", arguments.as_slice()),
        other => (other, rest),
    };
    match VERBS.iter().find(|(name, _)| *name == wanted) {
        Some((_, verb)) => ExitCode::from(verb(rest)),
        None => {
            let names: Vec<&str> = VERBS.iter().map(|(name, _)| *name).collect();
            output::err(&format!("desk: '{first}' is none of its verbs: {}\n", names.join(", ")));
            ExitCode::from(output::USAGE)
        }
    }
}
