//! Breakpoints among interrupts, kernel entries and RESUME, and what a held run goes on with.

use super::*;
use crate::asm::*;
use crate::breakpoints::run_to;
use crate::gen::any_points::{ahead, any_points};
use crate::gen::point_programs::{program, MODES};
use crate::gen::walks::walk;
use crate::gen::{known_bytes, maker::Maker};
use crate::points::{armed, off};
use crate::rng::Rng;

/// A level's handler: RESUME of the control block. Entry i leads to 600h + 8 × i.
fn handler(desk: &mut Bench, cause: u32) -> u32 {
    desk.put(0x600 + 8 * cause, &command(5, &[absolute(CONTROL)]));
    0x600 + 8 * cause
}

/// In kernel mode before a RESUME to user address 0, where three commands of 7 bytes stand; a level is
/// pending against the program's own level.
fn resuming(level: u32, own: u32) -> Bench {
    let mut desk = kernel();
    desk.state.pending = 1 << level;
    desk.code(&[command(0x16, &[register(1)]), command(5, &[absolute(CONTROL)])].concat());
    desk.put(USER, &command(0x16, &[register(2)]).repeat(3));
    for (offset, word) in [(64, own << 4), (72, MAP), (76, 8)] {
        desk.word(CONTROL + offset, word);
    }
    desk
}

/// In user mode at 0: two commands of 7 bytes and a jump back.
fn round_of_three() -> Bench {
    let mut desk = user();
    desk.word(CONTROL + 72, MAP);
    desk.word(CONTROL + 76, 8);
    desk.code(&[command(0x16, &[register(1)]).repeat(2), command(0x70, &[absolute(0)])].concat());
    desk
}

#[test]
fn an_interrupt_is_due() {
    for level in 1..16 {
        // Above the status level: entered at the breakpoint, which holds after its handler.
        let mut desk = resuming(level, level - 1);
        let entry = handler(&mut desk, 16 + level);
        assert_eq!(desk.run_to(9, &[armed(0)]), (4, Some(0)));
        assert_eq!((desk.state.pending, desk.state.status), (0, (level - 1) << 4));
        // The handler's own breakpoint holds right after the entry.
        let mut desk = resuming(level, level - 1);
        handler(&mut desk, 16 + level);
        assert_eq!(desk.run_to(9, &[armed(0), armed(entry)]), (3, Some(1)));
        assert_eq!(desk.run_to(9, &[armed(0), armed(entry)]), (1, Some(0)));
        // Where the step at the breakpoint is the last one.
        let mut desk = resuming(level, level - 1);
        assert_eq!(desk.run_to(3, &[armed(0), armed(entry)]), (3, None));
        // Equal to the status level, or below it: held at once, and the level still waits.
        for own in level..16 {
            let mut desk = resuming(level, own);
            assert_eq!(desk.run_to(9, &[armed(0)]), (2, Some(0)));
            assert_eq!(desk.state.pending, 1 << level);
        }
        // In kernel mode none is due, whatever the status level is.
        for own in [0, level, 15] {
            let mut desk = resuming(level, 0);
            desk.state.status |= own << 4;
            assert_eq!(desk.run_to(9, &[armed(519)]), (1, Some(0)));
            assert_eq!(desk.state.pending, 1 << level);
        }
    }
}

#[test]
fn several_levels() {
    let mut desk = resuming(9, 4);
    desk.state.pending |= 1 << 5 | 1 << 4 | 1 << 2;
    handler(&mut desk, 25);
    handler(&mut desk, 21);
    // Clear, RESUME, level 9 and its RESUME, level 5 and its RESUME.
    assert_eq!(desk.run_to(20, &[armed(0)]), (6, Some(0)));
    assert_eq!(desk.state.pending, 1 << 4 | 1 << 2);
}

#[test]
fn requests_between_runs() {
    let mut desk = round_of_three();
    let entry = handler(&mut desk, 20);
    assert_eq!(desk.run_to(9, &[armed(7)]), (1, Some(0)));
    // The next run begins with the interrupt, and its handler comes back to the breakpoint.
    desk.state = desk::request(&desk.state, 4).state;
    assert_eq!(desk.run_to(9, &[armed(7)]), (2, Some(0)));
    desk.state = desk::request(&desk.state, 4).state;
    assert_eq!(desk.run_to(9, &[armed(7), armed(entry)]), (1, Some(1)));
    assert_eq!(desk.run_to(9, &[armed(7), armed(entry)]), (1, Some(0)));
    // One that waits changes nothing.
    desk.state.status |= 0x40;
    desk.state = desk::request(&desk.state, 4).state;
    assert_eq!(desk.run_to(9, &[armed(14)]), (1, Some(0)));
    assert_eq!(desk.state.pending, 1 << 4);
}

#[test]
fn entries_and_ways_back() {
    // A system call, and alarm 12; the handler is a breakpoint, and so is what it goes back to.
    for (code, cause, back) in [(command(3, &[immediate(5)]), 1, 7), (vec![0xFE], 12, 0)] {
        let mut desk = round_of_three();
        desk.code(&code);
        let entry = handler(&mut desk, cause);
        assert_eq!(desk.run_to(9, &[armed(entry)]), (1, Some(0)));
        assert!(desk.state.kernel());
        let points = [off(entry), armed(back)];
        assert_eq!(desk.run_to(9, &points), (1, Some(1)));
        assert_eq!((desk.r15(), desk.state.kernel()), (back, false));
    }
    // One address, in either mode.
    let mut desk = round_of_three();
    desk.state.registers[PC] = 0x700 - 7;
    desk.code(&command(3, &[immediate(5)]));
    desk.word(8, 0x700);
    desk.put(0x700, &command(5, &[absolute(CONTROL)]));
    for kernel in [true, false] {
        assert_eq!(desk.run_to(9, &[armed(0x700)]), (1, Some(0)));
        assert_eq!(desk.state.kernel(), kernel);
    }
}

/// Desks of random programs, with random lists of at most 64.
fn random(count: u32, mut try_one: impl FnMut(&mut Rng, Bench, Vec<Breakpoint>)) {
    let rng = &mut Rng::new(17);
    let known = known_bytes();
    for i in 0..count {
        let mut maker = match i % 3 {
            0 => Maker::of_case(Rng::new(1), &walk(rng, &known)),
            _ => program(rng, MODES[i as usize % 3]).maker,
        };
        maker.state.pending |= (rng.word() & rng.word()) as u16 & 0xFFFE;
        let mut points = any_points(rng, &ahead(&maker.state, &maker.memory, 20), false);
        points.truncate(64);
        try_one(rng, Bench { state: maker.state, memory: maker.memory }, points);
    }
}

/// The request's words, step by step.
#[test]
fn steps_of_the_call_step() {
    let mut holds = 0;
    random(600, |rng, mut desk, points| {
        let n = u64::from(rng.below(40));
        let mut memory = desk.memory.clone();
        let mut state = desk.state;
        let mut count = 0;
        let mut place = None;
        for i in 0..n {
            let due = !state.kernel()
                && (1..16).any(|level| state.pending >> level & 1 == 1 && level > state.status >> 4 & 15);
            let equal = (0..points.len()).find(|at| points[*at].armed && points[*at].r15 == state.registers[PC]);
            if i > 0 && !due && equal.is_some() {
                place = equal.map(|at| at as u32);
                break;
            }
            state = desk::step(&state, &mut memory).state;
            count += 1;
            if state.mark != Mark::Running {
                break;
            }
        }
        assert_eq!(desk.run_to(n, &points), (count, place));
        assert_eq!((desk.state, &desk.memory), (state, &memory));
        holds += u32::from(place.is_some());
    });
    assert!(holds > 150, "{holds}");
}

/// A run that is held and gone on with, by runs to the same breakpoints and at last by `run`, is one run.
#[test]
fn held_and_gone_on_with() {
    let mut holds = 0;
    random(300, |rng, mut desk, points| {
        let n = 1 + u64::from(rng.below(60));
        let mut memory = desk.memory.clone();
        let whole = desk::run(&desk.state, &mut memory, n);
        let mut left = n;
        for _ in 0..rng.below(5) {
            let (count, held) = desk.run_to(left, &points);
            left -= count;
            if held.is_none() {
                break;
            }
            holds += 1;
        }
        let rest = desk::run(&desk.state, &mut desk.memory, left);
        let done = if rest.refusal == 7 { left } else { left - rest.count };
        assert_eq!((rest.state, n - done), (whole.state, whole.count));
        assert!(desk.memory == memory);
    });
    assert!(holds > 100, "{holds}");
}

/// "With at most 64 points, all off, a run answers as before".
#[test]
fn all_off() {
    random(300, |rng, desk, points| {
        let n = u64::from(rng.below(60));
        let points: Vec<Breakpoint> = points.into_iter().map(|point| off(point.r15)).collect();
        let (mut one, mut other) = (desk.memory.clone(), desk.memory);
        let answer = run_to(&desk.state, &mut one, n, &points);
        let ran = desk::run(&desk.state, &mut other, n);
        assert_eq!((answer.refusal, answer.state, answer.count), (ran.refusal, ran.state, ran.count));
        assert!(answer.held.is_none() && one == other);
    });
}
