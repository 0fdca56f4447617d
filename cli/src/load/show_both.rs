//! Two load lists in words: what each puts all in all, what both put, and what the library says to the two.

use super::both::{both, Why};
use super::shared::shared;
use super::show::{self, Totals};
use super::written;
use crate::{setup, words};
use std::io::{self, Write};

/// Writes two lists, each with its name, in short, and answers with the exit status: 0 where a memory of this length, or of
/// the least that both need, takes them together.
pub fn show_both(
    out: &mut dyn Write,
    (first_name, first): (&str, &[u8]),
    (second_name, second): (&str, &[u8]),
    length: Option<usize>,
) -> io::Result<u8> {
    let size = |list: &[u8]| written::bytes(list.len() as u64);
    writeln!(out, "-- {first_name}: {}, with {second_name}: {}\n", size(first), size(second))?;
    let answer = both(first, second, length);
    for (which, list) in [("first", first), ("second", second)] {
        let totals = Totals::of(list);
        writeln!(out, "the {which} list: {}", totals.words(answer.is_ok()))?;
        show::ranges(out, &totals.covered)?;
    }
    match answer {
        Ok(memory) => {
            in_common(out, first, second, "put")?;
            let least = if length.is_none() { ", the shortest that holds them" } else { "" };
            writeln!(out, "they load together into a memory of {}{least}", written::length(memory.len()))?;
            Ok(0)
        }
        Err(refused) => {
            if let Why::Clash(_) = refused.why {
                in_common(out, first, second, "would put")?;
            }
            let words = format!("{}: {}", refused.file(first_name, second_name), refused.words());
            show::refusal(out, &words, refused.hint())?;
            Ok(setup::refusal_status(refused.refusal))
        }
    }
}

/// The addresses that both put, and those at which they clash.
fn in_common(out: &mut dyn Write, first: &[u8], second: &[u8], put: &str) -> io::Result<()> {
    let shared = shared(first, second);
    let addresses = |count| words::counted(count, "address", "addresses");
    match shared.both.count() {
        0 => return writeln!(out, "no address is in both"),
        count => writeln!(out, "both {put} {}:", addresses(count))?,
    }
    show::ranges(out, &shared.both)?;
    if shared.clash().is_some() {
        writeln!(out, "they clash at {}:", addresses(shared.clashing.count()))?;
        show::ranges(out, &shared.clashing)?;
    }
    Ok(())
}
