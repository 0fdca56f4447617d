//! Runs that breakpoints hold.

mod common;

use common::{memory, put, spoiled, user, word};
use midesk::numbers::{self, MAX_BREAKPOINTS};
use midesk::RunEnd::{Ended, Held};
use midesk::{Breakpoint, Desk, Event, Mark, Refusal, RunEnd};
use std::mem::{align_of, offset_of, size_of};

type Ran = Result<(u64, RunEnd), Refusal>;

fn armed(r15: u32) -> Breakpoint {
    Breakpoint { r15, armed: true }
}

fn off(r15: u32) -> Breakpoint {
    Breakpoint { r15, armed: false }
}

/// So many breakpoints that hold no run of these tests.
fn elsewhere(count: usize) -> Vec<Breakpoint> {
    (0..count).map(|i| if i % 2 == 0 { off(512 + 7 * i as u32) } else { armed(0x1000_0000 + i as u32) }).collect()
}

/// The run's answer. The breakpoints are lent between others, which would hold it anywhere. All of them stay, and a
/// refused run leaves desk and memory.
fn run_to(desk: &mut Desk, memory: &mut [u8], n: u64, points: &[Breakpoint]) -> Ran {
    let beside: Vec<_> = (0..1024).map(armed).collect();
    let lent = [beside.as_slice(), points, &beside].concat();
    let (before, bytes) = (desk.clone(), memory.to_vec());
    let answer = desk.run_to(memory, n, &lent[beside.len()..][..points.len()]);
    assert!(lent == [beside.as_slice(), points, &beside].concat(), "a breakpoint has changed");
    assert!(answer.is_ok() || (*desk == before && memory == bytes), "a refused run has changed something");
    answer
}

/// CLEAR B R1 so many times, then HALT, at addresses 7 apart.
fn clears(count: usize) -> Vec<u8> {
    let mut code = [0x14, 2, 0x10, 0, 0, 0, 0].repeat(count);
    code.push(0x00);
    code
}

/// The same from 512 on, and a desk in kernel mode there.
fn kernel(count: usize) -> (Desk, Vec<u8>) {
    let memory = memory(&clears(count));
    (Desk::fresh(&memory, 0, 256, 512).unwrap(), memory)
}

/// A desk in kernel mode at 600, where RESUME leads to user mode with this status level, at address 0, to a jump to
/// itself. This level is pending. Every kernel entry leads to HALT at 768.
fn resumed(pending: u32, level: u32) -> (Desk, Vec<u8>) {
    let mut memory = memory(&[0x70, 0, 0, 0, 0, 0, 0]);
    let mut desk = user(&mut memory);
    desk.set_status(numbers::KERNEL);
    desk.set_register(15, 600);
    memory[600..607].copy_from_slice(&[0x05, 0, 0, 0, 0, 2, 0x80]); // RESUME of the block at 640
    put(&mut memory, 640 + numbers::CONTROL_STATUS, 16 * level);
    put(&mut memory, 640 + numbers::CONTROL_MAP_BASE, 336);
    put(&mut memory, 640 + numbers::CONTROL_MAP_LENGTH, 1);
    assert_eq!(desk.request(pending), Ok(()));
    (desk, memory)
}

#[test]
fn a_breakpoint_is_laid_out_as_in_c() {
    assert_eq!((size_of::<Breakpoint>(), align_of::<Breakpoint>()), (8, 4));
    assert_eq!((offset_of!(Breakpoint, r15), offset_of!(Breakpoint, armed)), (0, 4));
}

#[test]
fn a_run_is_held_before_the_command() {
    for steps in 1..=5 {
        let (mut desk, mut memory) = kernel(5);
        let (mut stepped, mut bytes) = (desk.clone(), memory.clone());
        let r15 = 512 + 7 * steps as u32;
        assert_eq!(run_to(&mut desk, &mut memory, 99, &[armed(r15)]), Ok((steps, Held { place: 0 })));
        assert_eq!((desk.register(15), desk.mark()), (r15, Mark::Running));
        assert_eq!(stepped.run(&mut bytes, steps), Ok(steps));
        assert_eq!((&desk, &memory), (&stepped, &bytes));
        // The command there is the next one: the run goes on, to the stop.
        assert_eq!(run_to(&mut desk, &mut memory, 99, &[armed(r15)]), Ok((6 - steps, Ended)));
        assert_eq!(desk.mark(), Mark::Stopped(numbers::HALT));
    }
    // Where no command begins.
    for r15 in [0, 1, 511, 513, 518, 520, 546, 548, 519 + (1 << 31), u32::MAX] {
        let (mut desk, mut memory) = kernel(5);
        assert_eq!(run_to(&mut desk, &mut memory, 99, &[armed(r15)]), Ok((6, Ended)));
    }
}

#[test]
fn without_an_armed_one_it_is_a_run() {
    for count in [0, 1, 2, 63, 64] {
        let points: Vec<_> = (0..count).map(|i| off(512 + 7 * (i % 8))).collect();
        for n in [0, 1, 2, 5, 6, 7, u64::MAX] {
            let (mut desk, mut memory) = kernel(5);
            let (mut other, mut bytes) = (desk.clone(), memory.clone());
            let steps = other.run(&mut bytes, n).unwrap();
            assert_eq!(run_to(&mut desk, &mut memory, n, &points), Ok((steps, Ended)));
            assert_eq!((desk, memory), (other, bytes));
        }
    }
}

#[test]
fn the_first_step_and_the_last_are_not_held() {
    let all: Vec<_> = (0..8).map(|i| armed(512 + 7 * i)).collect();
    for (n, answer) in [(0, (0, Ended)), (1, (1, Ended)), (2, (1, Held { place: 1 })), (99, (1, Held { place: 1 }))] {
        let (mut desk, mut memory) = kernel(5);
        assert_eq!(run_to(&mut desk, &mut memory, n, &all), Ok(answer));
        assert_eq!(desk.register(15), 512 + 7 * answer.0 as u32);
    }
    // Exactly n steps up to the breakpoint, one less and one more.
    for (n, answer) in [(2, (2, Ended)), (3, (3, Ended)), (4, (3, Held { place: 0 }))] {
        let (mut desk, mut memory) = kernel(5);
        assert_eq!(run_to(&mut desk, &mut memory, n, &[armed(533)]), Ok(answer));
    }
    // A jump to itself comes to its breakpoint after each step.
    let mut shared = memory(&[0x70, 0, 0, 0, 0, 0, 0]);
    let mut desk = user(&mut shared);
    let before = desk.clone();
    for _ in 0..3 {
        assert_eq!(run_to(&mut desk, &mut shared, 99, &[armed(0)]), Ok((1, Held { place: 0 })));
        assert_eq!(desk, before);
    }
}

#[test]
fn every_place_of_a_list_is_found() {
    for count in 1..=MAX_BREAKPOINTS {
        for place in 0..count {
            let mut points = elsewhere(count);
            points[place] = armed(519);
            let (mut desk, mut memory) = kernel(5);
            assert_eq!(run_to(&mut desk, &mut memory, 99, &points), Ok((1, Held { place })), "of {count}");
            // Off, it keeps its place.
            points[place].armed = false;
            let (mut desk, mut memory) = kernel(5);
            assert_eq!(run_to(&mut desk, &mut memory, 99, &points), Ok((6, Ended)), "of {count}");
        }
    }
}

#[test]
fn of_equal_breakpoints_the_first_armed_one_holds() {
    for (points, place) in [
        ([armed(519), armed(519), armed(519)], 0),
        ([off(519), armed(519), armed(519)], 1),
        ([off(519), off(519), armed(519)], 2),
        ([armed(526), off(519), armed(519)], 2),
        ([armed(526), armed(519), off(519)], 1),
    ] {
        let (mut desk, mut memory) = kernel(5);
        assert_eq!(run_to(&mut desk, &mut memory, 99, &points), Ok((1, Held { place })), "{points:?}");
    }
    let (mut desk, mut memory) = kernel(5);
    let same = [armed(519); MAX_BREAKPOINTS];
    assert_eq!(run_to(&mut desk, &mut memory, 99, &same), Ok((1, Held { place: 0 })));
    assert_eq!(run_to(&mut desk, &mut memory, 99, &same), Ok((5, Ended)));
}

#[test]
fn where_an_interrupt_is_due_nothing_is_held() {
    let points = [armed(0), off(768), armed(769)];
    let handler = [armed(0), armed(768)];
    for (pending, level) in [(1, 0), (5, 4), (15, 0), (15, 14)] {
        // The first step is RESUME, the second the entry.
        let (mut desk, mut memory) = resumed(pending, level);
        assert_eq!(run_to(&mut desk, &mut memory, 99, &handler), Ok((2, Held { place: 1 })));
        assert_eq!((desk.register(15), desk.pending(), desk.is_kernel()), (768, 0, true));
        assert_eq!(word(&memory, 640 + numbers::CONTROL_ARGUMENT), pending);
        assert_eq!(word(&memory, 640 + 60), 0);
        // With none at the kernel's first command; then that command stops, with R15 at a breakpoint.
        let (mut desk, mut memory) = resumed(pending, level);
        assert_eq!(run_to(&mut desk, &mut memory, 2, &handler), Ok((2, Ended)));
        let (mut desk, mut memory) = resumed(pending, level);
        assert_eq!(run_to(&mut desk, &mut memory, 99, &points), Ok((3, Ended)));
        assert_eq!((desk.register(15), desk.mark()), (769, Mark::Stopped(numbers::HALT)));
    }
    // Due before the first step.
    let mut shared = memory(&clears(5));
    let mut desk = user(&mut shared);
    assert_eq!(desk.request(3), Ok(()));
    assert_eq!(run_to(&mut desk, &mut shared, 99, &handler), Ok((1, Held { place: 1 })));
}

#[test]
fn where_a_level_is_pending_but_not_due_a_run_is_held() {
    // Not above the status level.
    for (pending, level) in [(1, 1), (5, 5), (5, 6), (15, 15), (1, 15)] {
        let (mut desk, mut memory) = resumed(pending, level);
        assert_eq!(run_to(&mut desk, &mut memory, 99, &[armed(768), armed(0)]), Ok((1, Held { place: 1 })));
        assert_eq!((desk.register(15), desk.pending(), desk.level()), (0, 1 << pending, level));
        assert_eq!(run_to(&mut desk, &mut memory, 99, &[armed(768), armed(0)]), Ok((1, Held { place: 1 })));
    }
    // In kernel mode.
    let (mut desk, mut memory) = kernel(5);
    desk.set_pending(0xFFFE);
    assert_eq!(run_to(&mut desk, &mut memory, 99, &[armed(519)]), Ok((1, Held { place: 0 })));
    // Requested while it is held: the next call enters.
    let (mut desk, mut memory) = resumed(1, 1);
    assert_eq!(run_to(&mut desk, &mut memory, 99, &[armed(0)]), Ok((1, Held { place: 0 })));
    assert_eq!(desk.request(2), Ok(()));
    assert_eq!(run_to(&mut desk, &mut memory, 1, &[armed(0)]), Ok((1, Ended)));
    assert_eq!((desk.register(15), desk.is_kernel()), (768, true));
}

#[test]
fn a_stop_at_a_breakpoint() {
    // Held before HALT, and not after it.
    let (mut desk, mut memory) = kernel(2);
    let points = [armed(527), armed(526)];
    assert_eq!(run_to(&mut desk, &mut memory, 99, &points), Ok((2, Held { place: 1 })));
    assert_eq!(run_to(&mut desk, &mut memory, 99, &points), Ok((1, Ended)));
    assert_eq!((desk.register(15), desk.mark()), (527, Mark::Stopped(numbers::HALT)));
    assert_eq!(run_to(&mut desk, &mut memory, 99, &points), Err(Refusal::Stopped));
    // A command that stops leaves R15 at itself.
    let (mut desk, mut memory) = kernel(2);
    memory[526] = 0xFF;
    assert_eq!(run_to(&mut desk, &mut memory, 99, &points), Ok((2, Held { place: 1 })));
    assert_eq!(run_to(&mut desk, &mut memory, 99, &points), Ok((1, Ended)));
    assert_eq!((desk.register(15), desk.mark()), (526, Mark::Stopped(numbers::COMMAND)));
    // An interrupt's entry that stops does so too.
    let (mut desk, mut memory) = resumed(5, 0);
    put(&mut memory, numbers::system_status(numbers::interrupt(5)), 0);
    assert_eq!(run_to(&mut desk, &mut memory, 99, &[armed(0)]), Ok((2, Ended)));
    assert_eq!((desk.register(15), desk.mark()), (0, Mark::Stopped(numbers::SYSTEM_ENTRY)));
}

#[test]
fn r15_is_compared_as_it_is() {
    // In user mode page 0 is frame 1: the command at 7 has the real address 519.
    for (r15, answer) in [(7, (1, Held { place: 0 })), (519, (3, Held { place: 1 }))] {
        let mut shared = memory(&clears(2));
        let mut desk = user(&mut shared);
        // HALT is alarm 13 there, and enters the kernel.
        assert_eq!(run_to(&mut desk, &mut shared, 99, &[armed(r15), armed(768)]), Ok(answer));
    }
    // One breakpoint for both modes.
    let (mut desk, mut memory) = resumed(5, 0);
    put(&mut memory, numbers::system_pc(numbers::interrupt(5)), 0);
    assert_eq!(run_to(&mut desk, &mut memory, 99, &[armed(0)]), Ok((2, Held { place: 0 })));
    assert!(desk.is_kernel());
}

/// What a run to breakpoints is, by single steps.
fn by_steps(desk: &mut Desk, memory: &mut [u8], n: u64, points: &[Breakpoint]) -> Ran {
    for steps in 0..n {
        let due = !desk.is_kernel() && desk.pending() >> (desk.level() + 1) != 0;
        let at = points.iter().position(|point| point.armed && point.r15 == desk.register(15));
        match at {
            Some(place) if steps > 0 && !due => return Ok((steps, Held { place })),
            _ => {}
        }
        if let Event::Stopped(_) = desk.step(memory)? {
            return Ok((steps + 1, Ended));
        }
    }
    Ok((n, Ended))
}

/// At 512 ADD W R0,R1, at 525 SUB W I 1,R0, at 538 JNE 512, at 545 HALT; R0 is 3, so that a run has ten steps.
fn countdown() -> (Desk, Vec<u8>) {
    let add = [0x42, 2, 0, 0, 0, 0, 0, 2, 0x10, 0, 0, 0, 0];
    let sub = [0x4A, 1, 0, 0, 0, 0, 1, 2, 0, 0, 0, 0, 0];
    let memory = memory(&[add.as_slice(), &sub, &[0x72, 0, 0, 0, 0, 2, 0], &[0x00]].concat());
    let mut desk = Desk::fresh(&memory, 0, 256, 512).unwrap();
    desk.set_register(0, 3);
    (desk, memory)
}

#[test]
fn a_run_is_as_its_steps_and_goes_on_as_a_run() {
    let choices: Vec<_> = [512, 525, 538, 545, 546].into_iter().flat_map(|r15| [armed(r15), off(r15)]).collect();
    let lists = choices.iter().flat_map(|a| choices.iter().map(|b| vec![*a, *b])).chain([choices.clone(), vec![]]);
    let (desk, memory) = countdown();
    for points in lists {
        for n in 0..=11 {
            let (mut held, mut bytes) = (desk.clone(), memory.clone());
            let answer = run_to(&mut held, &mut bytes, n, &points);
            let (mut stepped, mut others) = (desk.clone(), memory.clone());
            assert_eq!(answer, by_steps(&mut stepped, &mut others, n, &points), "{n} steps, {points:?}");
            assert_eq!((&held, &bytes), (&stepped, &others), "{n} steps, {points:?}");
            // The rest by a run, and by runs to breakpoints: what a run alone leaves.
            let mut made = answer.unwrap().0;
            if held.is_running() {
                made += held.run(&mut bytes, n - made).unwrap();
            }
            let (mut again, mut again_bytes) = (desk.clone(), memory.clone());
            let mut rest = n;
            while let (steps, Held { .. }) = run_to(&mut again, &mut again_bytes, rest, &points).unwrap() {
                rest -= steps;
            }
            let (mut alone, mut alone_bytes) = (desk.clone(), memory.clone());
            assert_eq!(alone.run(&mut alone_bytes, n), Ok(made));
            assert_eq!((&held, &bytes), (&alone, &alone_bytes), "{n} steps, {points:?}");
            assert_eq!((&again, &again_bytes), (&alone, &alone_bytes), "{n} steps, {points:?}");
        }
    }
}

#[test]
fn more_than_64_are_refused() {
    for count in [65, 66, 70, 128, 255, 256, 257, 320, 65_536, 65_537, 1_000_000] {
        for points in [vec![off(0); count], vec![armed(519); count], elsewhere(count)] {
            let (mut desk, mut memory) = kernel(5);
            for n in [0, 1, 2, 99] {
                assert_eq!(run_to(&mut desk, &mut memory, n, &points), Err(Refusal::Breakpoints), "{count}");
            }
        }
    }
}

#[test]
fn other_refusals_are_tried_before() {
    for (desk, memory, refusal) in spoiled() {
        for count in [0, 1, 64, 65, 1000] {
            for n in [0, 1, 99] {
                let (mut desk, mut memory) = (desk.clone(), memory.clone());
                assert_eq!(run_to(&mut desk, &mut memory, n, &elsewhere(count)), Err(refusal));
                for length in [0, 1, 511, 513, 1023] {
                    let answer = run_to(&mut desk, &mut memory[..length], n, &elsewhere(count));
                    assert_eq!(answer, Err(Refusal::Length));
                }
            }
        }
    }
}
