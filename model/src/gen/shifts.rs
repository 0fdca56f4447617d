//! SH: operands around the borders of V to the left, lost bits to the right, and jumps by V.

use super::family_rng;
use super::layout::{layout, Kind};
use super::special::fresh_code;
use crate::asm::*;
use crate::case::Case;
use crate::rng::Rng;
use crate::state::*;

/// Count and operand.
type Shift = (i32, i32);

/// Shifts in one case, each with two registers of its own.
const TOGETHER: usize = 6;

/// The highest and the lowest word with sign.
const ENDS: [i64; 2] = [i32::MAX as i64, i32::MIN as i64];

/// Shifts by one count of those numbers that are words with sign, each once.
fn by(count: i32, mut operands: Vec<i64>) -> Vec<Shift> {
    operands.sort();
    operands.dedup();
    operands.into_iter().filter_map(|operand| Some((count, i32::try_from(operand).ok()?))).collect()
}

/// To the left, by few and by many places.
fn left() -> Vec<Shift> {
    let mut shifts = Vec::new();
    for count in [0, 1, 2, 15, 30, 31, 32, 33, 64, i32::MAX] {
        let mut operands = vec![0, 1, -1, ENDS[0], ENDS[1]];
        if count < 32 {
            // From the border on V is set; a negative operand may reach it.
            let border = 1i64 << (31 - count);
            operands.extend([border - 1, border, -border, -border - 1]);
            // Multiples of it lose other bits than the sign, and give either sign.
            operands.extend([2, 3, -2, -3, -4].map(|times| times * border));
        }
        if count == 30 {
            operands.push(5);
        }
        shifts.extend(by(count, operands));
    }
    shifts
}

/// To the left by 32, 64, 128 and so on: counts whose low bits are 0.
fn powers() -> Vec<Shift> {
    (5..31).flat_map(|i| by(1 << i, vec![1, -1])).collect()
}

/// To the right, losing ones or zeros alone.
fn right() -> Vec<Shift> {
    let mut shifts = Vec::new();
    for count in [-1, -2, -30, -31, -32, -33, -i32::MAX, i32::MIN] {
        let whole = 1i64 << count.unsigned_abs().min(32);
        shifts.extend(by(count, vec![0, 1, -1, whole, -whole, 3 * whole + 1, ENDS[0], ENDS[1]]));
    }
    shifts
}

/// Straight code of shifts in page 0, or in its frame in kernel mode. Values stand in the commands,
/// in registers from R0 on, or as words in the next page, where each has its own address.
fn straight(rng: &mut Rng, shifts: &[Shift], kernel: bool, to_memory: bool) -> Case {
    let mut desk = layout(Rng::new(rng.next()), &[Kind::Writable; 2], false);
    let mut state = desk.maker.state;
    let mut word_at = FRAME_BYTES;
    if kernel {
        state.status |= KERNEL;
        state.registers[PC] = desk.first_frame * FRAME_BYTES;
        word_at += state.registers[PC];
    }
    let values: Vec<u32> = shifts.iter().flat_map(|(count, operand)| [*count as u32, *operand as u32]).collect();
    state.registers[..values.len()].copy_from_slice(&values);
    desk.maker.begin(state);
    for i in 0..shifts.len() {
        let mut operands = Vec::new();
        for j in [2 * i, 2 * i + 1] {
            operands.push(match desk.maker.rng.below(3) {
                0 => immediate(values[j]),
                1 => register(j as u8),
                _ => {
                    desk.lay_at(word_at, &values[j].to_be_bytes());
                    absolute(word_at)
                }
            });
            word_at += 4;
        }
        operands.push(if to_memory { absolute(word_at) } else { register(12 + i as u8 % 2) });
        word_at += 4;
        desk.maker.code(&command(0x60, &operands));
        desk.maker.step();
    }
    desk.maker.finish()
}

/// A range check as programs make it: JV leads to another command.
fn range_checks(rng: &mut Rng) -> Vec<Case> {
    let shifts = [
        (30, 1),
        (31, 1),
        (32, 1),
        (31, -1),
        (32, -1),
        (30, 5),
        (2, 0x4000_0000),
        (1, -0x4000_0000),
        (2, -0x4000_0000),
        (i32::MAX, 1),
        (i32::MAX, 0),
        (-1, 3),
    ];
    let make = |(count, operand): Shift| {
        let shift = command(0x60, &[immediate(count as u32), immediate(operand as u32), register(1)]);
        let inside = [command(0x12, &[immediate(1), register(2)]), vec![0]].concat();
        let beyond = [command(0x12, &[immediate(2), register(2)]), vec![0]].concat();
        let check = command(0x77, &[relative(inside.len() as u32, 15)]);
        fresh_code(rng, &[shift, check, inside, beyond].concat(), 2)
    };
    shifts.map(make).to_vec()
}

pub fn shifts() -> Vec<Case> {
    let mut rng = family_rng("shifts");
    let mut cases = Vec::new();
    for (shifts, places) in [(left(), &[false, true][..]), (powers(), &[false]), (right(), &[false])] {
        for (i, some) in shifts.chunks(TOGETHER).enumerate() {
            for to_memory in places {
                let kernel = (i % 2 == 0) == *to_memory;
                cases.push(straight(&mut rng, some, kernel, *to_memory));
            }
        }
    }
    cases.extend(range_checks(&mut rng));
    cases
}
