//! Runs to breakpoints (request F-3): numbers and places of them, near misses, numbers of steps.

use super::any_points::{ahead, bounded, near};
use super::family_rng;
use super::maker::Maker;
use super::point_programs::{program, Mode, Program, MODES};
use super::shuffle;
use crate::asm::{absolute, command, immediate, list as load_list, register};
use crate::case::{Call, Case, Outcome};
use crate::load::Command::{Byte, Move};
use crate::points::{armed, off};
use crate::rng::Rng;
use crate::state::*;
use std::cmp::Ordering;

/// A run that nothing else ends, ends here.
pub const MOST: u64 = 200;

impl Maker {
    /// A run to breakpoints, of fewer steps where it would go on for too long.
    pub fn run_to(&mut self, n: u32, points: &[Breakpoint]) -> Outcome {
        let n = bounded(&self.state, &self.memory, u64::from(n), MOST, points);
        self.call(Call::RunTo(n as u32, points.to_vec()))
    }

    /// R15 now and after each of the coming steps.
    pub fn ahead(&self, steps: usize) -> Vec<u32> {
        ahead(&self.state, &self.memory, steps)
    }
}

/// One of the addresses ahead but for the first, and after how many steps R15 is there again or first.
pub fn further(rng: &mut Rng, ahead: &[u32]) -> (u32, u32) {
    let there = rng.pick(&ahead[1..]);
    let steps = 1 + ahead[1..].iter().position(|r15| *r15 == there).unwrap_or(0);
    (steps as u32, there)
}

/// A list of so many, of which the one at `place` is the first armed one that equals `there`, and
/// no armed one equals another address ahead.
fn list(rng: &mut Rng, ahead: &[u32], there: u32, count: usize, place: usize) -> Vec<Breakpoint> {
    let point = |i: usize| match (i.cmp(&place), rng.below(5)) {
        (Ordering::Equal, _) => armed(there),
        (Ordering::Less, 0) => off(there),
        (Ordering::Greater, 0) => armed(there),
        (Ordering::Greater, 1) => off(there),
        (_, 2) => off(rng.pick(ahead)),
        (_, 3) => off(near(rng, ahead)),
        _ => armed(near(rng, ahead)),
    };
    (0..count).map(point).collect()
}

/// Numbers of breakpoints from 1 to 64, with the one that holds at their ends and between.
fn held(rng: &mut Rng, cases: &mut Vec<Case>) {
    let mut pairs = Vec::new();
    for count in [1usize, 2, 3, 6, 34, 63, 64, 64] {
        let mut places = vec![0, 1, count / 2, count.saturating_sub(2), count - 1];
        places.sort();
        places.dedup();
        pairs.extend(places.into_iter().filter(|place| *place < count).map(|place| (count, place)));
    }
    for mode in MODES {
        shuffle(rng, &mut pairs);
        for some in pairs.chunks(3) {
            let Program { mut maker, .. } = program(rng, mode);
            for (count, place) in some {
                let ahead = maker.ahead(9);
                let (steps, there) = further(rng, &ahead);
                let points = list(rng, &ahead, there, *count, *place);
                let outcome = maker.run_to(steps + 1 + rng.below(5), &points);
                assert_eq!((outcome.count, outcome.held), (steps, Some(*place as u32)));
            }
            cases.push(maker.finish());
        }
    }
}

/// Lists that hold nothing: none, all off, misses alone. A run beside each answers alike.
fn unheld(rng: &mut Rng, cases: &mut Vec<Case>) {
    for mode in MODES {
        for (round, count) in [0, 1, 2, 20, 64, 64, 63, 5].into_iter().enumerate() {
            let Program { mut maker, .. } = program(rng, mode);
            let ahead = maker.ahead(60);
            let points: Vec<Breakpoint> = (0..count)
                .map(|_| if round % 2 == 0 { off(rng.pick(&ahead)) } else { armed(near(rng, &ahead)) })
                .collect();
            for n in [1 + rng.below(20), 0, 1, rng.below(9)] {
                let outcome = maker.run_to(n, &points);
                assert_eq!((outcome.count, outcome.held), (n, None));
            }
            maker.call(Call::Run(rng.below(9)));
            cases.push(maker.finish());
        }
    }
}

/// Values that differ from R15 in one bit, in all bits above some, or lie in and around a command.
fn misses(rng: &mut Rng, cases: &mut Vec<Case>) {
    for mode in [Mode::User, Mode::Kernel] {
        for round in 0..6 {
            let Program { mut maker, .. } = program(rng, mode);
            let ahead = maker.ahead(12);
            let (steps, there) = further(rng, &ahead[..8]);
            let values: Vec<u32> = match round {
                0 | 1 => (0..32).map(|bit| there ^ 1 << bit).collect(),
                2 => (0..32).map(|bit| there ^ u32::MAX << bit).collect(),
                3 => (1..32).map(|bit| there ^ u32::MAX >> bit).collect(),
                4 => (1..40).flat_map(|far| [there.wrapping_add(far), there.wrapping_sub(far)]).take(60).collect(),
                _ => {
                    // In user mode the real address too.
                    let real = maker.real(there).into_iter();
                    real.chain([there * 2, there / 2, !there, there.swap_bytes(), there.wrapping_neg()]).collect()
                }
            };
            let missing = values.into_iter().filter(|value| !ahead.contains(value));
            let mut points: Vec<Breakpoint> = missing.map(armed).collect();
            let outcome = maker.run_to(steps - 1, &points);
            assert_eq!(outcome.held, None);
            let outcome = maker.run_to(2, &points);
            assert_eq!(outcome.held, None);
            // With the value itself at the end, the next time that R15 is there.
            points.push(armed(there));
            maker.run_to(u32::MAX, &points);
            cases.push(maker.finish());
        }
    }
}

/// A breakpoint some steps ahead, and numbers of steps up to it, at it and past it.
fn steps(rng: &mut Rng, cases: &mut Vec<Case>) {
    for mode in MODES {
        for distance in 1..=5usize {
            for n in [0, distance - 1, distance, distance + 1, u32::MAX as usize] {
                let Program { mut maker, .. } = program(rng, mode);
                let ahead = maker.ahead(distance);
                let there = ahead[distance];
                if ahead[1..distance].contains(&there) {
                    continue;
                }
                let points = [off(ahead[0]), armed(there)];
                let outcome = maker.run_to(n as u32, &points);
                assert_eq!(outcome.held.is_some(), n > distance);
                // The same list again, a step, and a run of as many steps.
                maker.run_to(rng.below(4), &points);
                maker.call(Call::Step);
                maker.call(Call::Run(rng.below(4)));
                cases.push(maker.finish());
            }
        }
    }
}

/// Runs that begin on a breakpoint: the next round holds them, also where R15 stays the same.
fn begun(rng: &mut Rng, cases: &mut Vec<Case>) {
    for round in 0..24 {
        let mut made = program(rng, MODES[round % 2]);
        let start = made.start;
        if round < 8 {
            // A jump to itself, or two jumps to each other.
            let other = if round < 4 { start } else { start + 7 };
            made.lay(&[command(0x70, &[absolute(other)]), command(0x70, &[absolute(start)])].concat());
        }
        let Program { mut maker, .. } = made;
        let points = [off(start), off(start + 7), armed(start), armed(start)];
        for n in [0, 1, 2, 2 + rng.below(90), u32::MAX] {
            maker.run_to(n, &points[round % 3..]);
        }
        maker.call(Call::Step);
        maker.run_to(u32::MAX, &points[1..]);
        maker.call(Call::Run(1 + rng.below(3)));
        maker.run_to(u32::MAX, &[armed(start)]);
        cases.push(maker.finish());
    }
}

/// Addresses at both ends and where no command can be fetched: a jump leads there, and the run is held
/// before that shows.
fn far(rng: &mut Rng, cases: &mut Vec<Case>) {
    for mode in MODES {
        for target in [0, u32::MAX, 0x8000_0000, 0x7FFF_FFFF, 3 * FRAME_BYTES, 4 * FRAME_BYTES, 0x0001_0000] {
            let mut made = program(rng, mode);
            made.lay(&command(0x70, &[absolute(target)]));
            let Program { mut maker, .. } = made;
            let points = [armed(target ^ 0x0001_0000), armed(target), armed(target)];
            for n in [40, 1, 40] {
                maker.run_to(n, &points);
            }
            cases.push(maker.finish());
        }
    }
}

/// The command that a run is held before is loaded anew; the next run does the new one.
fn changed(rng: &mut Rng, cases: &mut Vec<Case>) {
    for round in 0..6 {
        let Program { mut maker, .. } = program(rng, MODES[round % 2]);
        let (_, there) = further(rng, &maker.ahead(6));
        let points = [off(there), armed(there)];
        maker.run_to(50, &points);
        let Some(real) = maker.real(there) else { continue };
        let code = command(0x12, &[immediate(rng.word()), register(round as u8)]);
        let bytes: Vec<_> = [Move(real)].into_iter().chain(code.into_iter().map(Byte)).collect();
        maker.call(Call::Load(load_list(&bytes)));
        maker.run_to(50, &points);
        maker.run_to(1, &points);
        cases.push(maker.finish());
    }
}

pub fn lists() -> Vec<Case> {
    let mut rng = family_rng("points lists");
    let mut cases = Vec::new();
    held(&mut rng, &mut cases);
    unheld(&mut rng, &mut cases);
    misses(&mut rng, &mut cases);
    far(&mut rng, &mut cases);
    cases
}

pub fn numbers() -> Vec<Case> {
    let mut rng = family_rng("points numbers");
    let mut cases = Vec::new();
    steps(&mut rng, &mut cases);
    begun(&mut rng, &mut cases);
    changed(&mut rng, &mut cases);
    cases
}
