//! Commands on floating numbers (request F-6) after each combination of flags.

use super::float_pairs::paged;
use super::float_values::{bytes_of, infinity, power, sign};
use super::{family_rng, float_bytes};
use crate::asm::*;
use crate::case::{Call, Case};
use crate::code::{decode, FloatOp, Format, Op};
use crate::operand::Fields;
use crate::state::*;

/// Each command after each combination of flags: a system call's handler gives the next one.
pub fn flags_before() -> Vec<Case> {
    let mut rng = family_rng("float flags");
    let mut cases = Vec::new();
    for byte in float_bytes() {
        let known = decode(byte).unwrap();
        let Op::Float(op) = known.op else { continue };
        let format = known.operands[0].1;
        let (mut desk, _) = paged(&mut rng, false, 4);
        let mut state = desk.maker.state;
        state.status = 0;
        desk.maker.begin(state);
        let State { control_block, .. } = desk.maker.state;
        // The handler counts in a byte, and puts it into the saved status.
        desk.maker.decide(1);
        let handler = desk.maker.word(state.system_block + 8);
        let counter = handler + 60;
        let commands = [
            command(0x40, &[immediate(1), absolute(counter)]),
            command(0x10, &[absolute(counter), absolute(control_block + 67)]),
            command(5, &[absolute(control_block)]),
        ];
        desk.maker.lay(handler, &commands.concat());
        let numbers = 3 * FRAME_BYTES;
        for i in 0..16u32 {
            // Below zero, above, zero, infinite, NaN by turns, as MOVE gives them.
            let [first, second] = outcome_numbers(op, format, i % 5);
            let places = [numbers + 24 * i, numbers + 24 * i + 8, numbers + 24 * i + 16];
            desk.lay_at(places[0], &bytes_of(first, format));
            desk.lay_at(places[1], &bytes_of(second, format));
            let operands: Vec<Fields> = (0..known.operands.len()).map(|i| absolute(places[i])).collect();
            desk.maker.code(&command(byte, &operands));
            desk.maker.step();
            desk.maker.code(&command(3, &[register(0)]));
            desk.maker.call(Call::Run(4));
        }
        cases.push(desk.maker.finish_true().expect("a case that plays as it was made"));
    }
    cases
}

/// Two numbers by which a command gives one of five outcomes: below zero, above, zero, infinite, NaN.
fn outcome_numbers(op: FloatOp, format: Format, outcome: u32) -> [u64; 2] {
    let (one, half) = (power(format, 0), power(format, -1));
    let (minus, infinity) = (sign(format), infinity(format));
    match (op, outcome) {
        (FloatOp::Cmp, 0) => [half, one],
        (FloatOp::Cmp, 1) => [one, half],
        (FloatOp::Cmp, 2) => [minus, 0],
        (FloatOp::Cmp, 3) => [infinity, infinity],
        (FloatOp::Move, 2) => [minus, 0],
        (FloatOp::Move, 3) => [minus | infinity, 0],
        (FloatOp::Move, 0) => [minus | half, 0],
        (FloatOp::Move, 1) => [half, 0],
        (_, 4) => [infinity | 1, one],
        (FloatOp::Div, 3) => [0, minus | one],
        (FloatOp::Mult | FloatOp::Div, 2) => [if op == FloatOp::Div { infinity } else { minus }, one],
        (FloatOp::Mult | FloatOp::Div, 0) => [minus | one, half],
        (FloatOp::Mult | FloatOp::Div, 1) => [minus | one, minus | half],
        (FloatOp::Mult, _) => [infinity, minus | one],
        (FloatOp::Add, 2) => [minus | one, one],
        (FloatOp::Sub, 2) => [one, one],
        (FloatOp::Add, 0) => [minus | one, half],
        (FloatOp::Sub, 0) => [one, half],
        (_, 1) => [half, one],
        _ => [one, minus | infinity],
    }
}
