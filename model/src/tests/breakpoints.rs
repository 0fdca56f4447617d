//! Breakpoints (request F-3): where a run is held and where not, and number 20.

use super::*;
use crate::asm::*;
use crate::breakpoints::{first_armed, judge, run_to};
use crate::points::{armed, off};

/// A list that nothing refuses, and that no address of the bench equals.
fn others(count: usize) -> Vec<Breakpoint> {
    (0..count as u32).map(|i| armed(0x4000_0000 + i)).collect()
}

impl Bench {
    /// A run to breakpoints that isn't refused: its count, and the place.
    pub fn run_to(&mut self, n: u64, points: &[Breakpoint]) -> (u64, Option<u32>) {
        let answer = run_to(&self.state, &mut self.memory, n, points);
        assert_eq!(answer.refusal, 0);
        self.state = answer.state;
        (answer.count, answer.held)
    }

    /// A run to breakpoints that is refused and leaves all as it was.
    fn not_run(&mut self, n: u64, points: &[Breakpoint]) -> u32 {
        let memory = self.memory.clone();
        let answer = run_to(&self.state, &mut self.memory, n, points);
        assert_eq!((answer.state, answer.count, answer.held), (self.state, 0, None));
        assert_eq!(self.memory, memory);
        answer.refusal
    }

    pub fn r15(&self) -> u32 {
        self.state.registers[PC]
    }
}

/// Three commands of 7 bytes from R15 on, then a jump back to the first.
fn round(mut desk: Bench) -> Bench {
    let start = desk.r15();
    let jump = command(0x70, &[absolute(start)]);
    desk.code(&[command(0x16, &[register(1)]).repeat(3), jump].concat());
    desk
}

/// The same in user mode and in kernel mode, with the address of the first command.
fn rounds() -> [(Bench, u32); 2] {
    [(round(user()), 0), (round(kernel()), 512)]
}

/// A memory of 512 bytes with a jump to itself at 1F0h.
pub fn standing() -> Bench {
    let mut state = State::zero(0);
    (state.status, state.mark, state.control_block) = (KERNEL, Mark::Running, 256);
    state.registers[PC] = 0x1F0;
    let mut desk = Bench { state, memory: vec![0; 512] };
    desk.code(&command(0x70, &[absolute(0x1F0)]));
    desk
}

#[test]
fn numbers_of_points() {
    for (desk, start) in rounds() {
        let again = || Bench { state: desk.state, memory: desk.memory.clone() };
        assert_eq!(again().run_to(9, &[]), (9, None));
        assert_eq!(again().run_to(9, &[armed(start + 14)]), (2, Some(0)));
        for place in [0, 1, 31, 62, 63] {
            let mut points = others(64);
            points[place] = armed(start + 14);
            assert_eq!(again().run_to(9, &points), (2, Some(place as u32)));
            // More than 64, armed or not, whatever the number of steps.
            for more in [armed(start), off(start), armed(start + 14)] {
                points.push(more);
                assert_eq!([0, 1, 9, u64::MAX].map(|n| again().not_run(n, &points)), [20; 4]);
            }
        }
        assert_eq!(again().run_to(9, &others(64)), (9, None));
        for count in [65, 66, 128, 256, 320, 65_536 + 1] {
            assert_eq!(again().not_run(9, &vec![off(start); count]), 20);
        }
    }
}

#[test]
fn the_first_armed_one() {
    let there = 526;
    for (points, place) in [
        (vec![armed(there), armed(there)], 0),
        (vec![off(there), armed(there), armed(there)], 1),
        (vec![off(there), off(there), armed(there), off(there)], 2),
        (vec![off(1), armed(2), off(there), armed(there)], 3),
        (vec![armed(there), off(there)], 0),
        // One that a later step would meet stands before it.
        (vec![armed(there + 7), armed(there)], 1),
    ] {
        let mut desk = round(kernel());
        assert_eq!(desk.run_to(9, &points), (2, Some(place)));
        assert_eq!(desk.r15(), there);
    }
    // Off ones alone hold nothing.
    for points in [vec![off(there)], vec![off(there); 64], vec![off(512), off(519), off(526), off(533)]] {
        assert_eq!(round(kernel()).run_to(9, &points), (9, None));
    }
    assert_eq!(first_armed(5, &[]), None);
}

#[test]
fn all_32_bits_are_compared() {
    for bit in 0..32 {
        let mut desk = round(kernel());
        let points = [armed(526 ^ 1 << bit)];
        // 512, 519, 526 and 533 differ in more than one bit.
        assert_eq!(desk.run_to(40, &points), (40, None));
    }
    // Inside a command, one beside it, and in user mode the real address.
    let mut desk = round(kernel());
    let near: Vec<Breakpoint> = (500..550).filter(|at| at % 7 != 512 % 7).map(armed).collect();
    assert_eq!(desk.run_to(40, &near), (40, None));
    assert_eq!(round(user()).run_to(40, &[armed(USER + 7), armed(USER + 14)]), (40, None));
    // Addresses at both ends, where no command can be fetched.
    for (target, stop) in [(u32::MAX, 8), (0x8000_0000, 8), (8192, 8)] {
        let mut desk = kernel();
        desk.code(&command(0x70, &[absolute(target)]));
        assert_eq!(desk.run_to(9, &[armed(target)]), (1, Some(0)));
        assert_eq!(desk.r15(), target);
        assert_eq!(desk.run_to(9, &[armed(target)]), (1, None));
        assert_eq!(desk.state.mark, Mark::Stopped(stop));
    }
    let mut desk = round(user());
    desk.state.registers[PC] = 21;
    assert_eq!(desk.run_to(9, &[armed(0)]), (1, Some(0)));
}

#[test]
fn numbers_of_steps() {
    for (desk, start) in rounds() {
        let run = |n: u64, offset: u32| {
            let mut desk = Bench { state: desk.state, memory: desk.memory.clone() };
            (desk.run_to(n, &[armed(start + offset)]), desk.r15() - start)
        };
        // Two steps away: there is no hold after the last step asked for.
        assert_eq!(run(0, 14), ((0, None), 0));
        assert_eq!(run(1, 14), ((1, None), 7));
        assert_eq!(run(2, 14), ((2, None), 14));
        assert_eq!(run(3, 14), ((2, Some(0)), 14));
        assert_eq!(run(u64::MAX, 14), ((2, Some(0)), 14));
        // One step away.
        assert_eq!(run(1, 7), ((1, None), 7));
        assert_eq!(run(2, 7), ((1, Some(0)), 7));
        // Begun there: the first step is made, and the second time round holds.
        assert_eq!(run(0, 0), ((0, None), 0));
        assert_eq!(run(1, 0), ((1, None), 7));
        assert_eq!(run(4, 0), ((4, None), 0));
        assert_eq!(run(5, 0), ((4, Some(0)), 0));
        assert_eq!(run(u64::MAX, 0), ((4, Some(0)), 0));
    }
    // A jump to itself.
    let mut desk = standing();
    assert_eq!(desk.run_to(1, &[armed(0x1F0)]), (1, None));
    assert_eq!(desk.run_to(9, &[armed(0x1F0)]), (1, Some(0)));
    assert_eq!(desk.run_to(9, &[off(0x1F0)]), (9, None));
}

#[test]
fn what_is_done_before_the_hold_stays_done() {
    let mut desk = kernel();
    let store = |value: u32, at: u32| command(0x12, &[immediate(value), absolute(at)]);
    desk.code(&[store(5, 4096), store(6, 4100), store(7, 4104)].concat());
    assert_eq!(desk.run_to(9, &[armed(538)]), (2, Some(0)));
    assert_eq!((desk.get(4096), desk.get(4100), desk.get(4104)), (5, 6, 0));
    assert_eq!((desk.r15(), desk.state.mark), (538, Mark::Running));
    // Gone on with from there.
    assert_eq!(desk.run_to(1, &[armed(538)]), (1, None));
    assert_eq!(desk.get(4104), 7);
}

#[test]
fn a_stop_is_no_hold() {
    // HALT leaves R15 behind it.
    let mut desk = kernel();
    desk.code(&[command(0x16, &[register(1)]), vec![0]].concat());
    let first = Bench { state: desk.state, memory: desk.memory.clone() };
    assert_eq!(desk.run_to(9, &[armed(520)]), (2, None));
    assert_eq!((desk.state.mark, desk.r15()), (Mark::Stopped(0), 520));
    assert_eq!(desk.not_run(9, &[armed(520)]), 7);
    // Before it there is one.
    let mut desk = first;
    assert_eq!(desk.run_to(9, &[armed(520), armed(519)]), (1, Some(1)));
    assert_eq!(desk.run_to(9, &[armed(520), armed(519)]), (1, None));
    // A stop by an alarm leaves R15 where it was; so does stop 16.
    for (mut desk, code, number) in [(kernel(), 0xFE, 12), (user(), 0xFE, 16), (user(), 0x00, 16)] {
        let at = desk.r15();
        for cause in 0..32 {
            desk.word(8 * cause + 4, 0);
        }
        desk.code(&[code]);
        assert_eq!(desk.run_to(9, &[armed(at)]), (1, None));
        assert_eq!((desk.r15(), desk.state.mark), (at, Mark::Stopped(number)));
    }
}

/// A number, and what breaks it.
type Spoilt = (u32, fn(&mut Bench));

#[test]
fn number_20_comes_last() {
    let many = vec![armed(9); 65];
    let few = vec![armed(9); 64];
    let spoilt: [Spoilt; 7] = [
        (1, |desk| desk.memory.truncate(8191)),
        (2, |desk| desk.state.system_block = 2),
        (3, |desk| desk.state.control_block = 8191),
        (4, |desk| desk.state.map_length = 4096),
        (5, |desk| desk.state.status |= 0x100),
        (5, |desk| desk.state.pending = 1),
        (7, |desk| desk.state.mark = Mark::Stopped(0)),
    ];
    for (number, spoil) in spoilt {
        for mut desk in [user(), kernel()] {
            spoil(&mut desk);
            for n in [0, 1, 9] {
                assert_eq!(desk.not_run(n, &many), number);
                assert_eq!(desk.not_run(n, &few), number);
                assert_eq!(desk.not_run(n, &[]), number);
            }
        }
    }
    // Each number before those above it.
    let mut desk = kernel();
    for (number, spoil) in spoilt.into_iter().rev() {
        spoil(&mut desk);
        assert_eq!(desk.not_run(0, &many), number);
    }
    let mut desk = kernel();
    assert_eq!([desk.not_run(0, &many), desk.not_run(1, &many)], [20; 2]);
    assert_eq!(desk.run_to(0, &few), (0, None));
    assert_eq!(judge(&desk.state, &desk.memory, &many).unwrap_err().reason, "more than 64 breakpoints");
}
