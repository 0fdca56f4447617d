//! Refusals 1 to 7: bad lengths, blocks, maps, states, levels, stopped desks.

use super::family_rng;
use super::maker::Maker;
use crate::case::{Call, Case};
use crate::rng::Rng;
use crate::state::*;

pub fn good_state(rng: &mut Rng, length: u32) -> State {
    let kernel = length < 1024 || rng.chance(50);
    State {
        registers: std::array::from_fn(|i| if i % 4 == 1 { rng.word() } else { 0 }),
        status: if kernel { KERNEL } else { 0 } | rng.word() & (LEVEL | FLAGS),
        pending: if rng.chance(50) { rng.word() as u16 & 0xFFFE } else { 0 },
        map_base: 4 * rng.below(16),
        map_length: rng.below(8),
        system_block: 4 * rng.below(16),
        control_block: 4 * rng.below(64),
        mark: Mark::Running,
    }
}

/// Spoils a state so that one number refuses it.
pub fn spoil(rng: &mut Rng, state: &mut State, number: u32, variant: u32, length: u32) {
    match (number, variant % 6) {
        (2, 0) => state.system_block |= 1 + rng.below(3),
        (2, 1) => state.system_block = length - 252,
        (2, 2) => state.system_block = length,
        (2, 3) => state.system_block = 0xFFFF_FF00,
        (2, 4) => state.system_block = 0xFFFF_FFFC,
        (2, _) => state.system_block = rng.word() | 0x0200_0000,
        (3, 0) => state.control_block |= 1 + rng.below(3),
        (3, 1) => state.control_block = length - 76,
        (3, 2) => state.control_block = length - 72,
        (3, 3) => state.control_block = 0xFFFF_FFFC,
        (3, 4) => state.control_block = 0xFFFF_FFB0,
        (3, _) => state.control_block = rng.word() | 0x0200_0000,
        (4, 0) => state.map_base |= 1 + rng.below(3),
        (4, 1) => state.map_length = length.wrapping_sub(state.map_base) / 4 + 1,
        (4, 2) => (state.map_base, state.map_length) = (length + 4, 0),
        (4, 3) => (state.map_base, state.map_length) = (0xFFFF_FFF0, 4 + rng.below(8)),
        (4, 4) => state.map_length = 0x4000_0000 + rng.below(4),
        (4, _) => (state.map_base, state.map_length) = (1 + rng.below(3), 0),
        (5, 0..=2) => state.status |= 1 << (8 + rng.below(23)),
        (5, 3) => state.status |= rng.word() | 0x4000_0000,
        (5, 4) => state.pending |= 1,
        (5, _) => state.pending = 1,
        (7, 0) => state.mark = Mark::Stopped(0),
        (7, 1) => state.mark = Mark::Stopped(rng.word()),
        (7, _) => state.mark = Mark::Stopped(8 + rng.below(9)),
        _ => {}
    }
}

pub fn any_level(rng: &mut Rng) -> u32 {
    match rng.below(8) {
        0 => 0,
        1 => 16,
        2 => 17 + rng.below(300),
        3 => rng.word(),
        4 => 0x1_0000 * (1 + rng.below(8)) + rng.below(16),
        5 => 15,
        _ => 1 + rng.below(15),
    }
}

/// Each kind of call in any order.
fn calls(maker: &mut Maker, rng: &mut Rng, count: u32) {
    for _ in 0..count {
        match rng.below(6) {
            0 | 1 => maker.call(Call::Step),
            2 => maker.call(Call::Run(1 + rng.below(3))),
            3 => maker.call(Call::Run(0)),
            _ => maker.call(Call::Request(any_level(rng))),
        };
    }
}

fn fresh(maker: &mut Maker, rng: &mut Rng, state: &State) {
    let start = rng.below(maker.length() + 600);
    maker.call(Call::Fresh { system: state.system_block, control: state.control_block, start });
}

/// States at the limits of what is allowed.
fn limits(rng: &mut Rng, cases: &mut Vec<Case>) {
    for round in 0..24 {
        let length = 512 * (1 + rng.below(4));
        let mut state = good_state(rng, length);
        match round % 6 {
            0 => state.system_block = length - 256,
            1 => state.control_block = length - 80,
            2 => state.map_length = (length - state.map_base) / 4,
            3 => (state.map_base, state.map_length) = (length, 0),
            4 => (state.map_base, state.map_length) = (length - 4, 1),
            _ => state.status |= LEVEL | FLAGS,
        }
        let mut maker = Maker::new(Rng::new(rng.next()), length as usize);
        state.status |= KERNEL;
        state.registers[PC] = 0;
        maker.begin(state);
        calls(&mut maker, rng, 2);
        maker.call(Call::Step);
        fresh(&mut maker, rng, &state);
        calls(&mut maker, rng, 2);
        cases.push(maker.finish());
    }
}

pub fn refusals() -> Vec<Case> {
    let mut rng = family_rng("refusals");
    let mut cases = Vec::new();
    limits(&mut rng, &mut cases);
    // Number 1.
    for length in [0, 1, 80, 256, 511, 513, 767, 1023, 1025, 4100, 8191, 8700] {
        for _ in 0..2 {
            let mut state = good_state(&mut rng, length);
            state.registers[PC] = 0;
            let second = 2 + rng.below(6);
            if length >= 512 && rng.chance(60) {
                spoil(&mut rng, &mut state, second, 0, length);
            }
            let mut maker = Maker::new(Rng::new(rng.next()), length as usize);
            maker.begin(state);
            maker.call(Call::Step);
            maker.call(Call::Run(2));
            calls(&mut maker, &mut rng, 2);
            fresh(&mut maker, &mut rng, &state);
            maker.call(Call::Step);
            cases.push(maker.finish());
        }
    }
    // Numbers 2 to 5 and 7, alone and with a second one.
    for number in [2, 3, 4, 5, 7] {
        for variant in 0..18 {
            let length = 512 * (1 + rng.below(4));
            let mut state = good_state(&mut rng, length);
            if variant >= 6 {
                let second = rng.pick(&[2, 3, 4, 5, 7]);
                let other = rng.below(6);
                spoil(&mut rng, &mut state, second, other, length);
            }
            spoil(&mut rng, &mut state, number, variant, length);
            let mut maker = Maker::new(Rng::new(rng.next()), length as usize);
            if rng.chance(40) {
                maker.ramp(0, 512);
            }
            maker.begin(state);
            maker.call(Call::Step);
            maker.call(Call::Run(variant % 3));
            calls(&mut maker, &mut rng, 2);
            if number < 4 {
                fresh(&mut maker, &mut rng, &state);
                calls(&mut maker, &mut rng, 1);
            }
            cases.push(maker.finish());
        }
    }
    // Every undefined status bit, and every offset from a multiple of 4.
    for round in 0..23 + 9 {
        let mut state = good_state(&mut rng, 512);
        if round < 23 {
            state.status |= 1 << (8 + round);
        } else {
            let offset = (round - 23) % 3 + 1;
            match (round - 23) / 3 {
                0 => state.system_block += offset,
                1 => state.control_block += offset,
                _ => state.map_base += offset,
            }
        }
        let mut maker = Maker::new(Rng::new(rng.next()), 512);
        maker.begin(state);
        maker.call(Call::Step);
        maker.call(Call::Request(3));
        maker.call(Call::Run(1));
        fresh(&mut maker, &mut rng, &state);
        cases.push(maker.finish());
    }
    // Every level, and number 6.
    for round in 0..8 {
        let mut state = good_state(&mut rng, 512);
        state.pending = 0;
        if round % 2 == 1 {
            state.mark = Mark::Stopped(16);
        }
        if round == 6 {
            state.status |= 0x100;
        }
        let mut maker = Maker::new(Rng::new(rng.next()), 512);
        maker.begin(state);
        for level in [15, 14, 13, 12, 11, 10, 9, 8, 7, 6, 5, 4, 3, 2, 1, 16, 0, 31, 32, 0x1_0001, u32::MAX] {
            maker.call(Call::Request(level));
        }
        // Levels that are pending already.
        for level in if round < 2 { 1..16 } else { 4..6 } {
            maker.call(Call::Request(level));
        }
        calls(&mut maker, &mut rng, 2);
        cases.push(maker.finish());
    }
    // States of any content.
    for _ in 0..40 {
        let length = 512 * rng.below(5) + rng.pick(&[0, 0, 0, 0, 4, 1]);
        let mut state = good_state(&mut rng, length);
        for _ in 0..rng.below(3) {
            match rng.below(7) {
                0 => state.status = rng.word(),
                1 => state.pending = rng.word() as u16,
                2 => state.map_base = rng.word(),
                3 => state.map_length = rng.word(),
                4 => state.system_block = rng.word(),
                5 => state.control_block = rng.word(),
                _ => state.mark = Mark::Stopped(rng.word()),
            }
        }
        let mut maker = Maker::new(Rng::new(rng.next()), length as usize);
        maker.begin(state);
        calls(&mut maker, &mut rng, 5);
        cases.push(maker.finish());
    }
    cases
}
