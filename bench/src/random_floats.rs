//! Random floating numbers, many of them near a border of their kind or near each other: every contender must have the
//! same result and flags of each command on them.

use crate::contender::{Contender, CONTENDERS};
use crate::layout::Bench;
use crate::loops::{Loop, LENGTHS};
use crate::trial::{Place, Trial, START};
use model::rng::Rng;
use std::collections::HashSet;

/// The bits of the fraction of an F or a D, and those of its exponent.
fn parts(size: usize) -> (u32, u32) {
    if size == 4 {
        (23, 8)
    } else {
        (52, 11)
    }
}

fn long(rng: &mut Rng) -> u64 {
    u64::from(rng.word()) << 32 | u64::from(rng.word())
}

/// A fraction of so many bits: any, a few bits at one of its ends, or all but those.
fn fraction(rng: &mut Rng, bits: u32) -> u64 {
    let few = long(rng) >> 60;
    let fraction = match rng.below(4) {
        0 => long(rng),
        1 => few,
        2 => few << (bits - 4),
        _ => !few,
    };
    fraction & ((1 << bits) - 1)
}

/// A number of 4 or 8 bytes, by its bits: a zero, an infinite one, or mostly with the least exponents, the largest, or
/// those around that of 1.
pub fn number(rng: &mut Rng, size: usize) -> u64 {
    let (bits, exponents) = parts(size);
    let (most, middle) = ((1 << exponents) - 1, (1 << (exponents - 1)) - 1);
    let fraction = fraction(rng, bits);
    let (exponent, fraction) = match rng.below(9) {
        0 => (rng.pick(&[0, most]), 0),
        1 => (0, fraction),
        2 => (rng.below(bits + 4), fraction),
        3 => (most, fraction),
        4 => (most - rng.below(bits + 4), fraction),
        5 => (rng.below(most + 1), fraction),
        _ => (middle + rng.below(bits + 4) - bits / 2, fraction),
    };
    let sign = u64::from(rng.below(2)) << (8 * size - 1);
    sign | u64::from(exponent) << bits | fraction
}

/// Another number, often close to the first: equal, or in the last places, or as far as a sum still tells.
fn second(rng: &mut Rng, size: usize, first: u64) -> u64 {
    let (bits, exponents) = parts(size);
    let all = u64::MAX >> (64 - 8 * size);
    let sign = u64::from(rng.below(2)) << (8 * size - 1);
    let near = match rng.below(6) {
        0 => first,
        1 => first.wrapping_add(u64::from(rng.below(16))).wrapping_sub(8),
        2 | 3 => {
            let exponent = (first >> bits) as u32 & ((1 << exponents) - 1);
            let other = exponent.wrapping_add(rng.below(bits + 4)).wrapping_sub(bits / 2 + 2);
            u64::from(other & ((1 << exponents) - 1)) << bits | fraction(rng, bits)
        }
        _ => number(rng, size),
    };
    (near ^ sign) & all
}

/// The commands on numbers from R0 and R2 on, with results from R4 on: each operation with three operands, and with two
/// after MOVE; CMP.
fn commands(size: usize) -> Vec<(u8, Vec<[u8; 6]>)> {
    let j = (size / 8) as u8;
    let [a, b, to] = [Place::Register(0), Place::Register(2), Place::Register(4)].map(Place::operand);
    let mut commands = vec![];
    for operation in [0x80, 0x88, 0x90, 0x98] {
        commands.push((operation + 4 + j, vec![a, b, to]));
        commands.push((0xA0 + j, vec![b, to]));
        commands.push((operation + j, vec![a, to]));
    }
    commands.push((0xA4 + j, vec![a, b]));
    commands
}

/// What a number is: a zero of either sign, subnormal, normal, infinite, a NaN.
fn class(size: usize, bits: u64) -> usize {
    let (fraction, exponents) = parts(size);
    let exponent = bits >> fraction & ((1 << exponents) - 1);
    match (exponent, bits & ((1 << fraction) - 1)) {
        (0, 0) => (bits >> (8 * size - 1)) as usize,
        (0, _) => 2,
        (e, 0) if e == (1 << exponents) - 1 => 4,
        (e, _) if e == (1 << exponents) - 1 => 5,
        _ => 3,
    }
}

fn random_floats_of(size: usize) {
    let mut rng = Rng::new(size as u64);
    let commands = commands(size);
    let [_, mut desk] = Trial::new(0, &[]).in_both_modes();
    let bytes = |(code, operands): &(u8, Vec<[u8; 6]>)| [vec![*code], operands.concat()].concat();
    desk.put(START, &commands.iter().flat_map(bytes).collect::<Vec<u8>>());
    // By command: the classes of its result; of CMP the flags.
    let mut met = vec![[0u64; 16]; commands.len()];
    for _ in 0..60_000 {
        let a = number(&mut rng, size);
        let b = second(&mut rng, size, a);
        desk.set(Place::Register(0), size, a);
        desk.set(Place::Register(2), size, b);
        let mut state = desk.state;
        for ((code, _), met) in commands.iter().zip(&mut met) {
            let before = state;
            assert_eq!(Contender::Model.run(&mut desk.memory, &mut state, 1), Ok(1));
            for contender in CONTENDERS {
                let mut other = before;
                assert_eq!(contender.run(&mut desk.memory, &mut other, 1), Ok(1), "{contender:?}");
                assert_eq!(other, state, "{contender:?}: {code:02X}h of {a:X}h and {b:X}h");
            }
            let [high, low] = [state.registers[4], state.registers[5]].map(u64::from);
            let result = if size == 4 { high } else { high << 32 | low };
            met[if *code >= 0xA4 { state.status as usize % 16 } else { class(size, result) }] += 1;
        }
    }
    for ((code, _), met) in commands.iter().zip(&met) {
        let wanted: &[usize] = if *code >= 0xA4 { &[0, 2, 4, 8] } else { &[0, 1, 2, 3, 4, 5] };
        assert!(wanted.iter().all(|class| met[*class] > 100), "{code:02X}h: {met:?}");
    }
}

#[test]
fn random_f() {
    random_floats_of(4);
}

#[test]
fn random_d() {
    random_floats_of(8);
}

/// The four numbers of the measured loop stay normal, or zero, and between -2 and 2; each has many values.
#[test]
fn measured_floats() {
    let which = Loop::named("floats-user").unwrap()[0];
    let mut bench = Bench::new(which, LENGTHS[0]);
    let mut state = bench.start(u32::MAX);
    let mut met: [HashSet<u64>; 4] = Default::default();
    for _ in 0..20_000 {
        assert_eq!(Contender::Word.run(&mut bench.memory, &mut state, which.commands_per_turn()), Ok(10));
        let f = |bits| f64::from(f32::from_bits(bits));
        let d = |high, low| f64::from_bits(u64::from(high) << 32 | u64::from(low));
        let word = |offset| bench.value(offset, 4);
        let registers = [f(state.registers[2]), d(state.registers[9], state.registers[10])];
        let numbers = [registers[0], registers[1], f(word(100)), d(word(112), word(116))];
        for (number, met) in numbers.into_iter().zip(&mut met) {
            assert!(number.abs() < 2.0 && (number == 0.0 || number * number > f64::from(f32::MIN_POSITIVE)));
            met.insert(number.to_bits());
        }
    }
    assert!(met.iter().all(|met| met.len() > 5_000), "{:?}", met.map(|met| met.len()));
}
