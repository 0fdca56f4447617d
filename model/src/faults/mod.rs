//! Wrong copies of the model. Each is an edit of text in `faults/`; the
//! stored cases must tell every copy from the model.

pub mod copies;
pub mod edits;

use crate::case::{Call, Case, Desk, Expected, MODEL};
use crate::store;
use std::panic::{catch_unwind, set_hook, AssertUnwindSafe};
use std::path::Path;

/// Steps that a run gets at most: a wrong copy may go on where the model stops or is held.
const STEPS: u32 = 5_000;

/// How many cases a copy answers wrongly, and in how many of these it panics.
#[derive(Clone, Copy, Default, Debug)]
pub struct Tally {
    pub cases: usize,
    pub panics: usize,
}

/// Whether a desk gives anything else than what is stored.
fn differs(desk: &Desk, case: &Case, expected: &Expected) -> bool {
    let mut memory = case.image.clone();
    let mut state = case.start;
    for (call, wanted) in case.calls.iter().zip(&expected.outcomes) {
        let outcome = match call {
            Call::Run(n) => desk.make(&Call::Run((*n).min(STEPS)), &state, &mut memory),
            Call::RunTo(n, points) => desk.make(&Call::RunTo((*n).min(STEPS), points.clone()), &state, &mut memory),
            other => desk.make(other, &state, &mut memory),
        };
        if outcome != *wanted {
            return true;
        }
        state = outcome.state;
    }
    memory != expected.memory
}

/// Plays all cases on a desk.
fn told(desk: &Desk, cases: &[(Case, Expected)]) -> Tally {
    let mut told = Tally::default();
    for (case, expected) in cases {
        let answer = catch_unwind(AssertUnwindSafe(|| differs(desk, case, expected)));
        told.panics += usize::from(answer.is_err());
        told.cases += usize::from(answer.unwrap_or(true));
    }
    told
}

/// How many stored cases the model itself doesn't answer as stored, and how many there are.
pub fn of_model(cases: &Path) -> (usize, usize) {
    let cases = store::read(&std::fs::read(cases).expect("the stored cases"));
    (told(&MODEL, &cases).cases, cases.len())
}

/// The main function of the programs that hold the copies: prints name, cases and panics of each.
pub fn play(copies: &[(&str, Desk)]) {
    let path = std::env::args().nth(1).expect("a file of stored cases");
    let cases = store::read(&std::fs::read(path).expect("the stored cases"));
    set_hook(Box::new(|_| {}));
    for (name, desk) in copies {
        let told = told(desk, &cases);
        println!("{name} {} {}", told.cases, told.panics);
    }
}
