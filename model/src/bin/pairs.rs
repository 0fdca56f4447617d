//! Writes random pairs of load lists with the model's answers to standard output:
//! `pairs SEED COUNT` writes COUNT sequences of that seed, each of 10 joint loads on
//! one memory (of 3 on the greatest); with `only I` as third and fourth argument,
//! number I (from 0) alone.
//!
//! The form is that of the program `sequences`; the same arguments write the
//! same bytes.

use model::sequences::{pairs, program, stream};

fn main() {
    program::run("pairs", 0, |seed, i| stream::body(&pairs::sequence(seed, i)));
}
