//! Random lists of breakpoints around the addresses where a desk is about to run, and runs to them.

use crate::breakpoints::run_to;
use crate::desk;
use crate::points::LONGEST;
use crate::rng::Rng;
use crate::state::*;

/// R15 now and after each of the coming steps, at most so many.
pub fn ahead(state: &State, memory: &[u8], steps: usize) -> Vec<u32> {
    let mut memory = memory.to_vec();
    let mut state = *state;
    let mut list = vec![state.registers[PC]];
    while list.len() <= steps {
        let answer = desk::step(&state, &mut memory);
        if answer.refusal != 0 {
            break;
        }
        state = answer.state;
        list.push(state.registers[PC]);
    }
    list
}

/// An R15 value that is none of those ahead but near one, inside its command, or like one in some bits.
pub fn near(rng: &mut Rng, ahead: &[u32]) -> u32 {
    loop {
        let there = rng.pick(ahead);
        let r15 = match rng.below(12) {
            0 => there.wrapping_add(1),
            1 => there.wrapping_sub(1),
            2 | 3 => there.wrapping_add(1 + rng.below(19)),
            4 => there ^ 1 << rng.below(32),
            5 => there ^ 0x0001_0000,
            6 => there & 0xFFFF | rng.word() & 0xFFFF_0000,
            7 => there ^ 0x8000_0000,
            8 => 0,
            9 => u32::MAX,
            10 => rng.word() | 0xFFFF_FF00,
            _ => rng.word(),
        };
        if !ahead.contains(&r15) {
            return r15;
        }
    }
}

fn any_count(rng: &mut Rng, long: bool) -> usize {
    let longest = LONGEST as u32;
    let count = match rng.below(if long { 24 } else { 15 }) {
        0 => 0,
        1..=3 => 1,
        4..=12 => 2 + rng.below(5),
        13 => 7 + rng.below(25),
        14 => rng.below(longest + 1),
        15 | 16 => 63,
        17 | 18 => 64,
        19 | 20 => 65,
        _ => longest - rng.below(12),
    };
    count as usize
}

/// Any list; `long` for many near 64.
pub fn any_points(rng: &mut Rng, ahead: &[u32], long: bool) -> Vec<Breakpoint> {
    let count = any_count(rng, long);
    // A long list mostly misses, or it would hold every command.
    let misses = rng.chance(if count > 6 { 75 } else { 15 });
    let share = rng.pick(&[100, 100, 80, 60, 50, 20, 0]);
    let mut points: Vec<Breakpoint> = Vec::new();
    for _ in 0..count {
        let r15 = match rng.below(10) {
            0 if !points.is_empty() => rng.pick(&points).r15,
            1..=5 if !misses => rng.pick(ahead),
            _ => near(rng, ahead),
        };
        points.push(Breakpoint { r15, armed: rng.chance(share) });
    }
    if misses && count > 0 {
        for _ in 0..1 + rng.below(2) {
            let other = rng.below(count as u32) as usize;
            let place = rng.pick(&[0, count - 1, count - 1, other, other]);
            points[place] = Breakpoint { r15: rng.pick(ahead), armed: rng.chance(80) };
        }
    }
    points
}

/// How many steps: few, as many as lead to a breakpoint, one less or more, or very many.
pub fn any_steps(rng: &mut Rng, ahead: &[u32], points: &[Breakpoint]) -> u32 {
    let led = |i: &u32| points.iter().any(|point| point.r15 == ahead[*i as usize]);
    let leading: Vec<u32> = (1..ahead.len() as u32).filter(led).collect();
    match rng.below(14) {
        0 => 0,
        1 => 1,
        2..=4 => u32::MAX,
        5..=8 if !leading.is_empty() => rng.pick(&leading) + rng.below(3) - 1,
        9..=11 => rng.below(60),
        _ => rng.below(12),
    }
}

/// n, or at most `most` where nothing would end the run earlier.
pub fn bounded(state: &State, memory: &[u8], n: u64, most: u64, points: &[Breakpoint]) -> u64 {
    let tried = run_to(state, &mut memory.to_vec(), n.min(most), points);
    let goes_on = tried.refusal == 0 && tried.held.is_none() && !tried.state.stopped();
    if goes_on {
        n.min(most)
    } else {
        n
    }
}
