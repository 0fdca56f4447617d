//! Writes random commands on floating numbers with the model's answers to standard output:
//! `floats SEED COUNT` writes COUNT sequences of that seed, each of some 70 commands on one desk;
//! with `only I` as third and fourth argument, number I (from 0) alone.
//!
//! The form is that of the program `sequences`; the same arguments write the
//! same bytes.

use model::sequences::{floats, program, stream};

fn main() {
    program::run("floats", 0, |seed, i| stream::body(&floats::sequence(seed, i)));
}
