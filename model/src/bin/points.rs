//! Writes random runs to breakpoints with the model's answers to standard output:
//! `points SEED COUNT` writes COUNT sequences of that seed, each of 10 runs on one
//! desk; with `only I` as third and fourth argument, number I (from 0) alone.
//!
//! The form is that of the program `sequences`; the same arguments write the
//! same bytes.

use model::sequences::{points, program, stream};

fn main() {
    program::run("points", 0, |seed, i| stream::body(&points::sequence(seed, i)));
}
