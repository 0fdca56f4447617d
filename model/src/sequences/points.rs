//! Random runs to breakpoints: sequences of them, one after another on one desk.

use super::acts::{any_run_to, aside, revive, scribble};
use super::lists::numbers;
use super::session::Session;
use super::*;
use crate::gen::known_bytes;
use crate::gen::maker::Maker;
use crate::gen::point_programs::{program, MODES};
use crate::gen::walks::{noise_case, walk};
use crate::rng::Rng;

/// How many runs a sequence has.
pub const RUNS: usize = 10;

/// Runs to breakpoints alone, with what the caller does between them: sequence number `index` of a seed.
pub fn sequence(seed: u64, index: u32) -> Sequence {
    let rng = &mut numbers(seed, "points", index);
    let known = known_bytes();
    let maker = match rng.below(10) {
        0..=5 => {
            let mode = rng.pick(&MODES);
            program(rng, mode).maker
        }
        6..=8 => Maker::of_case(Rng::new(0), &walk(rng, &known)),
        round => Maker::of_case(Rng::new(0), &noise_case(rng, round)),
    };
    let mut session = Session::new("points", maker.memory, packed(&maker.state));
    while session.calls() < RUNS {
        between(&mut session, rng, &known);
        if rng.chance(15) {
            aside(&mut session, rng, any_run_to);
        } else {
            any_run_to(&mut session, rng);
        }
    }
    session.finish()
}

/// The caller makes a stopped desk go on, makes levels pending, changes the status level, writes commands.
fn between(session: &mut Session, rng: &mut Rng, known: &[u8]) {
    if session.state.stopped() && rng.chance(80) {
        revive(session, rng);
    }
    let word = rng.word();
    match rng.below(12) {
        0 | 1 => session.edit(|state| state.pending |= 2 << (word % 15)),
        2 => session.edit(|state| state.pending = word as u16 & 0xFFFE),
        3 => session.edit(|state| state.status = state.status & !LEVEL | word & LEVEL),
        4 => scribble(session, rng, known),
        _ => {}
    }
}
