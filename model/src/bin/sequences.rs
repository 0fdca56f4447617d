//! Writes sequences of calls with the model's answers to standard output:
//! `sequences SEED COUNT`. First come the generator's own cases, then sequences
//! of loads, then COUNT random sequences of that seed; with `only I` as third
//! and fourth argument, number I of that list (from 0) alone.
//!
//! The form of what it writes is described at the top of
//! `src/sequences/stream.rs`; the same arguments write the same bytes.

use model::sequences::{program, random, stream};

fn main() {
    let stored = random::stored();
    let cases = stored.len() as u32;
    program::run("sequences", cases + random::LOADS, |seed, i| match stored.get(i as usize) {
        Some(sequence) => stream::body(sequence),
        None if i < cases + random::LOADS => stream::body(&random::loads(seed, i - cases)),
        None => stream::body(&random::sequence(seed, i - cases - random::LOADS)),
    });
}
