//! SH: results and flags. V of shifts to the left is that of request F-2.

use super::*;
use crate::arith::apply;
use crate::asm::*;
use crate::code::Op;

const LOWEST: u32 = 0x8000_0000;
const MINUS_ONE: u32 = 0xFFFF_FFFF;
const MOST: u32 = 0x7FFF_FFFF;

/// Result and flags, the same into a register and into memory, whatever the flags before.
fn shifted(count: u32, operand: u32) -> (u32, u32) {
    let mut found = Vec::new();
    for flags in 0..16 {
        for to in [register(3), absolute(1024)] {
            let mut desk = kernel();
            desk.state.status |= flags;
            desk.code(&command(0x60, &[immediate(count), immediate(operand), to])).step();
            let result = if to == register(3) { desk.state.registers[3] } else { desk.get(1024) };
            found.push((result, desk.flags()));
        }
    }
    assert!(found.iter().all(|answer| *answer == found[0]));
    found[0]
}

#[test]
fn left() {
    // Count, operand, result, flags.
    let shifts = [
        (30, 1, 0x4000_0000, 0),
        (31, 1, LOWEST, N | V),
        (32, 1, 0, Z | V),
        (33, 1, 0, Z | V),
        (MOST, 1, 0, Z | V),
        (30, MINUS_ONE, 0xC000_0000, N),
        (31, MINUS_ONE, LOWEST, N),
        (32, MINUS_ONE, 0, Z | V),
        (MOST, MINUS_ONE, 0, Z | V),
        (31, 0xFFFF_FFFE, 0, Z | V),
        (31, 0xFFFF_FFFD, LOWEST, N | V),
        (30, 5, 0x4000_0000, V),
        (30, 6, LOWEST, N | V),
        (1, 0x3FFF_FFFF, 0x7FFF_FFFE, 0),
        (1, 0x4000_0000, LOWEST, N | V),
        (2, 0x4000_0000, 0, Z | V),
        (1, 0xC000_0000, LOWEST, N),
        (1, 0xBFFF_FFFF, 0x7FFF_FFFE, V),
        (2, 0xC000_0000, 0, Z | V),
        (0, LOWEST, LOWEST, N),
        (1, LOWEST, 0, Z | V),
        (0, MOST, MOST, 0),
        (1, MOST, 0xFFFF_FFFE, N | V),
        (0, 0, 0, Z),
        (31, 0, 0, Z),
        (32, 0, 0, Z),
        (MOST, 0, 0, Z),
    ];
    for (count, operand, result, flags) in shifts {
        assert_eq!(shifted(count, operand), (result, flags), "{operand:08X}h by {count}");
    }
}

#[test]
fn right() {
    // Places, operand, result, flags.
    let shifts = [
        (1, 1, 0, Z),
        (1, 3, 1, 0),
        (1, MINUS_ONE, MINUS_ONE, N),
        (1, LOWEST, 0xC000_0000, N),
        (2, 0x4000_0001, 0x1000_0000, 0),
        (31, LOWEST, MINUS_ONE, N),
        (31, MOST, 0, Z),
        (32, LOWEST | 1, MINUS_ONE, N),
        (32, MOST, 0, Z),
        (MOST, MOST, 0, Z),
        (LOWEST, 0, 0, Z),
        (LOWEST, 5, 0, Z),
        (LOWEST, MOST, 0, Z),
        (LOWEST, LOWEST, MINUS_ONE, N),
        (LOWEST, MINUS_ONE, MINUS_ONE, N),
    ];
    for (places, operand, result, flags) in shifts {
        let count = 0u32.wrapping_sub(places);
        assert_eq!(shifted(count, operand), (result, flags), "{operand:08X}h by -{places}");
    }
}

/// Operands around 0 and around every power of 2 with either sign.
fn operands() -> Vec<i32> {
    let mut all = Vec::new();
    for power in 0..32 {
        for near in -4..=4 {
            all.extend([(1i64 << power) + near, -(1i64 << power) + near]);
        }
    }
    all.into_iter().filter_map(|operand| i32::try_from(operand).ok()).collect()
}

/// By a few places the whole product can be written down.
#[test]
fn left_against_the_product() {
    for count in 0..=40u32 {
        for operand in operands() {
            let product = i128::from(operand) * 2i128.pow(count);
            let result = product.rem_euclid(1 << 32) as u32;
            let n = if result >= LOWEST { N } else { 0 };
            let z = if result == 0 { Z } else { 0 };
            let v = if i32::try_from(product).is_err() { V } else { 0 };
            let wanted = Some((result, n | z | v));
            assert_eq!(apply(Op::Sh, count, operand as u32, 4), wanted, "{operand} by {count}");
        }
    }
}

/// By 32 places or more only 0 fits.
#[test]
fn left_by_many_places() {
    let powers = (5..31).map(|power| 1u32 << power);
    for count in (32..200).chain(powers).chain(MOST - 70..=MOST) {
        for operand in operands() {
            let wanted = Some((0, if operand == 0 { Z } else { Z | V }));
            assert_eq!(apply(Op::Sh, count, operand as u32, 4), wanted, "{operand} by {count}");
        }
    }
}

/// To the right the result is the quotient, rounded down, and V is clear.
#[test]
fn right_against_the_quotient() {
    for places in 1..=40u32 {
        for operand in operands() {
            let quotient = i128::from(operand).div_euclid(2i128.pow(places));
            let n = if quotient < 0 { N } else { 0 };
            let z = if quotient == 0 { Z } else { 0 };
            let wanted = Some((quotient as u32, n | z));
            assert_eq!(apply(Op::Sh, 0u32.wrapping_sub(places), operand as u32, 4), wanted, "{operand} by -{places}");
        }
    }
}

/// A range check after a shift: JV leads away when the product doesn't fit.
#[test]
fn range_check() {
    for (count, leads_away) in [(30, false), (31, true), (32, true), (MOST, true)] {
        let mut desk = kernel();
        let shift = command(0x60, &[immediate(count), immediate(1), register(1)]);
        desk.code(&[shift, command(0x77, &[absolute(1024)])].concat());
        desk.step();
        desk.step();
        assert_eq!(desk.state.registers[PC] == 1024, leads_away);
    }
}
