//! Random programs with random breakpoints, and calls that go on from each other.

use super::any_points::{any_points, any_steps};
use super::maker::Maker;
use super::point_programs::{program, MODES};
use super::refusals::any_level;
use super::walks::{noise_case, walk};
use super::{family_rng, known_bytes};
use crate::case::{Call, Case};
use crate::rng::Rng;
use crate::state::*;

/// Runs to breakpoints, often with the list of the one before, and other calls between them.
fn calls(rng: &mut Rng, mut maker: Maker, count: u32) -> Case {
    let mut points: Vec<Breakpoint> = Vec::new();
    for _ in 0..count {
        match rng.below(14) {
            0 => drop(maker.call(Call::Step)),
            1 => drop(maker.call(Call::Run(rng.below(6)))),
            2 => drop(maker.call(Call::Request(1 + rng.below(15)))),
            3 => drop(maker.call(Call::Request(any_level(rng)))),
            _ => {
                let ahead = maker.ahead(24);
                if points.is_empty() || rng.chance(60) {
                    points = any_points(rng, &ahead, false);
                }
                let n = any_steps(rng, &ahead, &points);
                maker.run_to(n, &points);
            }
        }
    }
    maker.finish()
}

pub fn walks() -> Vec<Case> {
    let mut rng = family_rng("points walks");
    let rng = &mut rng;
    let known = known_bytes();
    let mut cases = Vec::new();
    for round in 0..75 {
        let mut maker = program(rng, MODES[round % 3]).maker;
        if rng.chance(50) {
            let mut state = maker.state;
            state.pending = (rng.word() & rng.word()) as u16 & 0xFFFE;
            maker.begin(state);
        }
        let count = 4 + rng.below(4);
        cases.push(calls(rng, maker, count));
    }
    for round in 0..75 {
        let case = if round % 5 == 4 { noise_case(rng, round) } else { walk(rng, &known) };
        let maker = Maker::of_case(Rng::new(rng.next()), &case);
        let count = 3 + rng.below(4);
        cases.push(calls(rng, maker, count));
    }
    cases
}
