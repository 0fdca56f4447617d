//! Number 20, and the numbers that are tried before it.

use super::any_points::near;
use super::family_rng;
use super::maker::Maker;
use super::point_programs::{program, Program, MODES};
use super::refusals::{good_state, spoil};
use crate::case::{Call, Case};
use crate::points::{armed, off, LONGEST};
use crate::rng::Rng;
use crate::state::*;

/// Lists of so many: all armed at one place, all off, misses, one armed, the first 64 off.
fn list(rng: &mut Rng, ahead: &[u32], kind: usize, count: usize) -> Vec<Breakpoint> {
    let there = rng.pick(ahead);
    let point = |i: usize| match kind % 5 {
        0 => armed(there),
        1 => off(rng.pick(ahead)),
        2 => armed(near(rng, ahead)),
        3 => Breakpoint { r15: there, armed: i + 1 == count },
        _ => Breakpoint { r15: rng.pick(ahead), armed: i >= 64 },
    };
    (0..count).map(point).collect()
}

/// More than 64 on a desk that could run; with 64 of them it does.
fn alone(rng: &mut Rng, cases: &mut Vec<Case>) {
    let counts = [65, 65, 65, 65, 65, 66, 67, LONGEST, 65, 65];
    for (round, count) in counts.into_iter().chain(counts).enumerate() {
        let Program { mut maker, .. } = program(rng, MODES[round % 3]);
        let mut state = maker.state;
        state.pending = if round % 2 == 1 { 0xFFFE } else { 0 };
        maker.begin(state);
        let points = list(rng, &maker.ahead(9), round, count);
        for n in [rng.pick(&[1, 2, 9, u32::MAX]), 0] {
            let outcome = maker.call(Call::RunTo(n, points.clone()));
            assert_eq!(outcome.refusal, 20);
        }
        maker.run_to(7, &points[..64]);
        maker.call(Call::RunTo(3, points));
        cases.push(maker.finish());
    }
}

/// A state that breaks some numbers (2 to 5, 7), and lists of few and of many breakpoints.
fn refused(rng: &mut Rng, length: u32, broken: &[u32], variant: u32) -> Case {
    let mut state = good_state(rng, length);
    state.registers[PC] = rng.below(length + 1);
    for number in broken {
        spoil(rng, &mut state, *number, variant, length);
    }
    let mut maker = Maker::new(Rng::new(rng.next()), length as usize);
    if length >= 512 && rng.chance(40) {
        maker.ramp(0, 512);
    }
    maker.begin(state);
    let few: Vec<Breakpoint> = (0..rng.below(4)).map(|_| armed(rng.word())).collect();
    let many = vec![Breakpoint { r15: state.registers[PC], armed: rng.chance(50) }; 65 + rng.below(2) as usize];
    let mut calls = vec![(rng.below(4), few.clone()), (1 + rng.below(3), many.clone()), (0, many), (0, few)];
    // Both kinds of list, with 0 steps and with more, over all the cases.
    calls.rotate_left(variant as usize % 4);
    for (n, points) in calls.into_iter().take(3) {
        maker.call(Call::RunTo(n, points));
    }
    maker.finish()
}

pub fn refusals() -> Vec<Case> {
    let mut rng = family_rng("points refused");
    let rng = &mut rng;
    let mut cases = Vec::new();
    alone(rng, &mut cases);
    // Each number alone in its variants, then with each that comes after it.
    let numbers = [2, 3, 4, 5, 7];
    for number in numbers {
        cases.extend((0..6).map(|variant| refused(rng, 1024, &[number], variant)));
    }
    for (i, first) in numbers.into_iter().enumerate() {
        cases.extend(numbers[i + 1..].iter().map(|second| refused(rng, 1536, &[first, *second], first + second)));
    }
    cases.push(refused(rng, 512, &numbers, 1));
    // Number 1, alone and with each other.
    for (variant, length) in [0, 1, 511, 513, 16_777_728].into_iter().enumerate() {
        cases.push(refused(rng, length, &[], variant as u32));
    }
    cases.extend(numbers.map(|number| refused(rng, 1025, &[number], number)));
    cases
}
