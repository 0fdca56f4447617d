//! What the programs that write sequences share: their arguments, and the writing.

use super::stream;
use std::io::{BufWriter, Write};

/// The program `name SEED COUNT [only I]`: writes `front` sequences and COUNT more,
/// or number I of them alone. `body` gives the stored form of a seed's number.
pub fn run(name: &str, front: u32, body: impl Fn(u64, u32) -> Vec<u8>) {
    let arguments: Vec<String> = std::env::args().skip(1).collect();
    let Some((seed, count, only)) = read(&arguments) else { refuse(name, "") };
    let Some(all) = front.checked_add(count) else { refuse(name, "COUNT is too great") };
    let numbers = match only {
        Some(i) if i >= all => refuse(name, &format!("the list has the numbers below {all}")),
        Some(i) => i..i + 1,
        None => 0..all,
    };
    let mut out = BufWriter::new(std::io::stdout().lock());
    let mut write = |bytes: &[u8]| said(name, out.write_all(bytes));
    write(&stream::head(numbers.len() as u32));
    for i in numbers {
        write(&body(seed, i));
    }
    write(stream::END);
    said(name, out.flush());
}

/// Seed, count, and the number after `only`.
fn read(arguments: &[String]) -> Option<(u64, u32, Option<u32>)> {
    let only = match arguments.get(2..)? {
        [] => None,
        [word, number] if word == "only" => Some(number.parse().ok()?),
        _ => return None,
    };
    Some((arguments[0].parse().ok()?, arguments[1].parse().ok()?, only))
}

/// Ends the program with its usage.
fn refuse(name: &str, why: &str) -> ! {
    if !why.is_empty() {
        eprintln!("{name}: {why}");
    }
    eprintln!("usage: {name} SEED COUNT [only I]");
    std::process::exit(2);
}

/// Ends the program where it can't write; silently where nobody reads on.
fn said(name: &str, result: std::io::Result<()>) {
    if let Err(error) = result {
        if error.kind() != std::io::ErrorKind::BrokenPipe {
            eprintln!("{name}: {error}");
        }
        std::process::exit(1);
    }
}
