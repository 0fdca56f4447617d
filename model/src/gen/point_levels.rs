//! Runs to breakpoints where levels are pending, at handlers, after RESUME, and where the desk stops.

use super::family_rng;
use super::point_programs::{program, Mode, Program};
use super::points::further;
use crate::asm::{absolute, command, immediate, register};
use crate::case::{Call, Case};
use crate::points::{armed, off};
use crate::rng::Rng;
use crate::state::*;

/// The saved status of a program that is about to be resumed gets this level.
fn saved_level(program: &mut Program, own: u32) {
    let at = program.maker.state.control_block + 64;
    let status = program.maker.word(at);
    program.maker.lay_word(at, status & !LEVEL | own << 4);
}

/// The state of a start, changed.
fn begin(program: &mut Program, change: impl FnOnce(&mut State)) {
    let mut state = program.maker.state;
    change(&mut state);
    program.maker.begin(state);
}

/// A level that is pending when RESUME leads to a breakpoint: it is entered there if it is above the
/// status level, and its handler comes back to the breakpoint; else the run is held at once. In the
/// kernel commands before, a breakpoint holds in any case.
fn resumed(rng: &mut Rng, cases: &mut Vec<Case>) {
    for level in 1..=15u32 {
        for own in [level - 1, level, (level + 1).min(15), rng.below(level)] {
            let mut made = program(rng, Mode::Resuming);
            saved_level(&mut made, own);
            begin(&mut made, |state| state.pending = 1 << level);
            let Program { mut maker, start, handlers, .. } = made;
            let kernel = maker.ahead(1)[1];
            let points = match rng.below(4) {
                0 => vec![armed(start)],
                1 => vec![off(handlers[2]), armed(start), armed(start)],
                2 => vec![armed(handlers[2]), armed(start)],
                _ => vec![off(start), armed(kernel), armed(handlers[2]), armed(start)],
            };
            for _ in 0..3 {
                maker.run_to(100, &points);
            }
            maker.call(Call::Request(1 + rng.below(15)));
            maker.run_to(30, &points);
            cases.push(maker.finish());
        }
    }
}

/// Several levels at once: those above the status level are entered one after another.
fn several(rng: &mut Rng, cases: &mut Vec<Case>) {
    for round in 0..16 {
        let mut made = program(rng, if round % 2 == 0 { Mode::Resuming } else { Mode::User });
        let own = rng.below(16);
        saved_level(&mut made, own);
        let pending = if round < 4 { 0xFFFE } else { (rng.word() | 1 << (own + 1) | 1 << own) as u16 & 0xFFFE };
        begin(&mut made, |state| {
            state.pending = pending;
            if !state.kernel() {
                state.status = state.status & !LEVEL | own << 4;
            }
        });
        let Program { mut maker, start, handlers, .. } = made;
        let points = if round % 4 < 2 { vec![armed(start)] } else { vec![armed(start), armed(handlers[2])] };
        for _ in 0..4 {
            maker.run_to(90, &points);
        }
        cases.push(maker.finish());
    }
}

/// Held runs, and then requests: a level above the status level is entered by the next run's first
/// step, and its handler comes back to the breakpoint; others wait, and the run goes on.
fn requested(rng: &mut Rng, cases: &mut Vec<Case>) {
    for round in 0..30u32 {
        let mode = if round % 3 == 2 { Mode::Kernel } else { Mode::User };
        let mut made = program(rng, mode);
        let own = round / 2;
        begin(&mut made, |state| state.status = state.status & !LEVEL | own << 4);
        let Program { mut maker, .. } = made;
        let ahead = maker.ahead(8);
        let points = [armed(further(rng, &ahead).1), armed(further(rng, &ahead).1)];
        maker.run_to(40, &points);
        for level in [own + 1, own, 1 + rng.below(15)] {
            maker.call(Call::Request(level));
            maker.run_to(40, &points);
            if rng.chance(30) {
                maker.call(Call::Step);
            }
        }
        maker.run_to(40, &points[1..]);
        cases.push(maker.finish());
    }
}

/// Kernel mode with levels pending below, at and above the status level.
fn waiting(rng: &mut Rng, cases: &mut Vec<Case>) {
    for level in 1..=15u32 {
        let mut made = program(rng, Mode::Kernel);
        let own = rng.pick(&[0, level - 1, level, 15]);
        begin(&mut made, |state| {
            state.pending = 1 << level;
            state.status = KERNEL | own << 4;
        });
        let Program { mut maker, .. } = made;
        for _ in 0..2 {
            let (steps, there) = further(rng, &maker.ahead(8));
            let outcome = maker.run_to(steps + 1, &[off(there), armed(there)]);
            assert_eq!((outcome.count, outcome.held), (steps, Some(1)));
        }
        cases.push(maker.finish());
    }
}

/// Breakpoints at handlers of system calls and alarms, and behind the commands that lead there.
fn handled(rng: &mut Rng, cases: &mut Vec<Case>) {
    for round in 0..24usize {
        let mut made = program(rng, Mode::User);
        let cause = round % 3;
        let code = match cause {
            0 => command(3, &[immediate(rng.word())]),
            1 => vec![rng.pick(&[0x00, 0x7F, 0xFF])],
            // No access to that page: the handler's skip of one byte leads into the command.
            _ => command(0x12, &[absolute(3 * FRAME_BYTES), register(1)]),
        };
        made.lay(&code);
        let Program { mut maker, start, handlers, .. } = made;
        let next = start + code.len() as u32;
        let handler = handlers[cause.min(1)];
        let points = match round / 3 % 4 {
            0 => vec![armed(handler)],
            1 => vec![armed(next), armed(handler)],
            2 => vec![off(handler), armed(start + 1), armed(next)],
            _ => vec![armed(handler + 13), armed(start), armed(next)],
        };
        for n in [50, 50, 1, 2, 50] {
            maker.run_to(n, &points);
        }
        cases.push(maker.finish());
    }
}

pub fn levels() -> Vec<Case> {
    let mut rng = family_rng("points levels");
    let mut cases = Vec::new();
    resumed(&mut rng, &mut cases);
    several(&mut rng, &mut cases);
    requested(&mut rng, &mut cases);
    waiting(&mut rng, &mut cases);
    handled(&mut rng, &mut cases);
    cases
}

/// A command that stops the desk after some others, with breakpoints at it and where R15 is
/// afterwards: a stop is no hold. Afterwards 7 refuses, also where 20 would.
fn stop(rng: &mut Rng, round: usize, mut made: Program, code: &[u8], halts: bool) -> Case {
    let lead = command(0x42, &[immediate(rng.word()), register(3)]);
    let at = made.start + 2 * lead.len() as u32;
    made.lay(&[&lead[..], &lead, code].concat());
    let Program { mut maker, .. } = made;
    let left = if halts { at + 1 } else { at };
    let points = [off(at), armed(left), armed(at)];
    match round / 4 {
        // Past the command where nothing is armed there, in one run.
        0 => {
            let mut points = vec![off(at), armed(at + 1)];
            points.resize([2, 63, 64, 2][round % 4], off(left));
            maker.run_to(u32::MAX, &points);
        }
        // From it on, as the last step and with more to come.
        1 => {
            maker.call(Call::Run(2));
            maker.run_to(1 + rng.below(3), &points);
        }
        _ => {
            let outcome = maker.run_to(u32::MAX, &points);
            assert_eq!((outcome.count, outcome.held), (2, Some(if halts { 2 } else { 1 })));
            maker.run_to(u32::MAX, &points);
        }
    }
    assert!(maker.state.stopped());
    let count = [65, 3, 63, 64, 65][round % 5];
    let refused = maker.call(Call::RunTo(rng.below(3), vec![armed(left); count]));
    assert_eq!(refused.refusal, 7);
    maker.call(Call::Request(1 + rng.below(15)));
    maker.call(Call::RunTo(2, points.to_vec()));
    maker.finish()
}

pub fn stops() -> Vec<Case> {
    let mut rng = family_rng("points stops");
    let rng = &mut rng;
    let mut cases = Vec::new();
    for round in 0..16 {
        let code = match round % 4 {
            0 | 1 => vec![0],
            2 => vec![rng.pick(&[0x04, 0x7F, 0xFE])],
            _ => command(3, &[immediate(1)]),
        };
        let mut made = program(rng, Mode::Kernel);
        if round % 3 == 0 {
            begin(&mut made, |state| state.pending = rng.word() as u16 & 0xFFFE);
        }
        cases.push(stop(rng, round, made, &code, round % 4 < 2));
    }
    // Stop 16 in user mode: entries without a valid kernel status.
    for round in 0..12 {
        let mut made = program(rng, Mode::User);
        let system = made.maker.state.system_block;
        for cause in 1..16 {
            let status = rng.pick(&[0, 0xF0, 0x8000_0100, 0x4000_0000]);
            made.maker.lay_word(system + 8 * cause + 4, status);
        }
        let code = if round % 2 == 0 { command(3, &[immediate(1)]) } else { vec![0] };
        cases.push(stop(rng, round, made, &code, false));
    }
    // An interrupt whose entry is bad, after RESUME and at a breakpoint: neither held nor entered.
    for level in [1u32, 4, 8, 15] {
        let mut made = program(rng, Mode::Resuming);
        saved_level(&mut made, level - 1);
        begin(&mut made, |state| state.pending = 1 << level);
        let Program { mut maker, start, .. } = made;
        maker.lay_word(maker.state.system_block + 8 * (16 + level) + 4, 0x10);
        maker.run_to(50, &[armed(start)]);
        assert_eq!(maker.state.mark, Mark::Stopped(16));
        cases.push(maker.finish());
    }
    cases
}
