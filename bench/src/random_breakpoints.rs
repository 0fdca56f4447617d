//! Random programs with random lists of breakpoints: every contender must answer alike and leave the same state and
//! memory, and so when the same call goes on after a hold.

use crate::breakpoints::{self, Breakpoints, MODULUS};
use crate::check::check_breakpoints;
use crate::contender::{Contender, CONTENDERS};
use crate::layout::PROGRAM;
use crate::loops;
use crate::programs::addresses;
use crate::random::{case, damaged, next_byte, uncovered};
use crate::state::State;
use midesk::Breakpoint;
use model::entry::interrupt;
use model::rng::Rng;
use std::collections::HashSet;

/// R15 now and after each of the coming steps, at most 12, up to a command that plain Rust does not cover; and how many
/// steps may be asked for.
fn ahead(memory: &[u8], state: &State) -> (Vec<u32>, u64) {
    let (mut memory, mut state) = (memory.to_vec(), *state);
    let mut ahead = vec![state.registers[15]];
    for steps in 0..12 {
        if Contender::Model.run(&mut memory, &mut state, 0).is_err() {
            return (ahead, u64::MAX);
        }
        if next_byte(&memory, &state).is_some_and(uncovered) {
            return (ahead, steps);
        }
        assert_eq!(Contender::Model.run(&mut memory, &mut state, 1), Ok(1));
        ahead.push(state.registers[15]);
    }
    (ahead, 12)
}

/// A list, longer ones among them, of which so many in a hundred are at an address ahead; others are equal to one modulo
/// 64, or near one, or anywhere.
fn list(rng: &mut Rng, ahead: &[u32]) -> Vec<Breakpoint> {
    let met = rng.pick(&[1, 8, 40]);
    let count = match rng.below(10) {
        0 => 65 + rng.below(2),
        1 | 2 => 63 + rng.below(2),
        _ => rng.below(9),
    };
    let point = |_| {
        let there = rng.pick(ahead);
        let r15 = match rng.below(4) {
            _ if rng.chance(met) => there,
            0 => rng.word(),
            1 => there.wrapping_add(rng.below(80)).wrapping_sub(40),
            _ => there ^ MODULUS << rng.below(26),
        };
        Breakpoint { r15, armed: rng.chance(70) }
    };
    (0..count).map(point).collect()
}

#[test]
fn random_breakpoints() {
    let mut rng = Rng::new(7);
    let mut refused = [0u64; 21];
    let (mut ended, mut held, mut after_entry) = (0u64, 0u64, 0u64);
    for case_number in 0..40_000 {
        let (mut memory, mut state) = if rng.chance(10) { damaged(&mut rng) } else { case(&mut rng) };
        if rng.chance(20) {
            state.pending = rng.word() as u16 & !1;
        }
        let (ahead, most) = ahead(&memory, &state);
        let points = list(&mut rng, &ahead);
        let mut left = if most == u64::MAX && rng.chance(50) { most } else { u64::from(rng.below(13)).min(most) };
        loop {
            let before = (memory.clone(), state);
            let answer = Contender::Model.run_to(&mut memory, &mut state, left, &points);
            for contender in CONTENDERS {
                let (mut other_memory, mut other) = before.clone();
                let other_answer = contender.run_to(&mut other_memory, &mut other, left, &points);
                assert_eq!(other_answer, answer, "case {case_number}: {contender:?}, {left} steps, {points:X?}");
                assert_eq!(other, state, "case {case_number}: {contender:?}, {left} steps, {points:X?}");
                assert!(other_memory == memory, "case {case_number}: {contender:?}, {left} steps, memory");
            }
            match answer {
                Ok((steps, Some(_))) => {
                    left -= steps;
                    held += 1;
                    after_entry += u64::from(steps == 1 && interrupt(&before.1.to_model()).is_some());
                }
                Ok((_, None)) => {
                    ended += 1;
                    break;
                }
                Err(number) => {
                    assert!((memory, state) == before, "case {case_number}: a refused run has changed something");
                    refused[number as usize] += 1;
                    break;
                }
            }
        }
    }
    assert!(ended > 100 && held > 100 && after_entry > 100, "{ended}, {held}, {after_entry}");
    for number in [1, 2, 3, 4, 5, 7, 20] {
        assert!(refused[number] > 100, "refusal {number}: {refused:?}");
    }
}

#[test]
fn measured_breakpoints() {
    for which in loops::all() {
        for kind in breakpoints::ALL {
            check_breakpoints(which, kind).unwrap();
        }
    }
}

/// The lists are what their names say.
#[test]
fn measured_lists_of_breakpoints() {
    for kind in loops::all().map(|which| which.kind) {
        let commands = addresses(kind, PROGRAM);
        let residue = |point: &Breakpoint| point.r15 % MODULUS;
        let equal = |point: &Breakpoint| commands.iter().any(|address| address % MODULUS == residue(point));
        let [none, off, one, near, full] = breakpoints::ALL.map(|list| list.points(kind));
        assert_eq!((none.len(), off.len(), one.len(), near.len(), full.len()), (0, 64, 1, 1, 64));
        assert!(off.iter().all(|point| !point.armed && commands.contains(&point.r15)));
        for point in [&one, &near, &full].into_iter().flatten() {
            assert!(point.armed && !commands.contains(&point.r15));
        }
        assert!(!equal(&one[0]) && residue(&near[0]) == PROGRAM % MODULUS);
        assert_eq!(full.iter().map(residue).collect::<HashSet<_>>().len(), MODULUS as usize);
    }
    assert_eq!(Breakpoints::named("all"), Some(breakpoints::ALL.to_vec()));
    for kind in breakpoints::ALL {
        assert_eq!(Breakpoints::named(kind.name()), Some(vec![kind]));
    }
}
