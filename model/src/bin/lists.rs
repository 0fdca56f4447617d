//! Writes random load lists with the model's answers to standard output:
//! `lists SEED COUNT` writes COUNT sequences of that seed, each of 10 loads on
//! one memory; with `only I` as third and fourth argument, number I (from 0) alone.
//!
//! The form is that of the program `sequences`; the same arguments write the
//! same bytes.

use model::sequences::{lists, program, stream};

fn main() {
    program::run("lists", 0, |seed, i| stream::body(&lists::sequence(seed, i)));
}
