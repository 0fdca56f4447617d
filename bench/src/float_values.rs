//! Worked values of the floating commands: bits and flags, in registers and in memory, in both modes.

use crate::trial::{value, Place, Trial};

const N: u32 = 8;
const Z: u32 = 4;
const V: u32 = 2;

/// F with two operands; D has the next byte, three operands the one 4 further.
const ADD: u8 = 0x80;
const SUB: u8 = 0x88;
const MULT: u8 = 0x90;
const DIV: u8 = 0x98;
const MOVE: u8 = 0xA0;
const CMP: u8 = 0xA4;

/// Operation, first and second operand, result, flags.
type Worked = (u8, u64, u64, u64, u32);

const F: &[Worked] = &[
    (ADD, 0x3F80_0000, 0x4000_0000, 0x4040_0000, 0),
    // Ties go to the even one.
    (ADD, 0x3380_0000, 0x3F80_0000, 0x3F80_0000, 0),
    (ADD, 0x3380_0000, 0x3F80_0001, 0x3F80_0002, 0),
    (ADD, 0x3380_0001, 0x3F80_0000, 0x3F80_0001, 0),
    (ADD, 0xBF80_0000, 0x3F80_0000, 0, Z),
    (ADD, 0x8000_0000, 0x8000_0000, 0x8000_0000, Z),
    (ADD, 0x8000_0000, 0, 0, Z),
    (ADD, 0x7F7F_FFFF, 0x7F7F_FFFF, 0x7F80_0000, V),
    (ADD, 0xFF7F_FFFF, 0xFF7F_FFFF, 0xFF80_0000, N | V),
    // Half of the last place above the largest number.
    (ADD, 0x72FF_FFFF, 0x7F7F_FFFF, 0x7F7F_FFFF, 0),
    (ADD, 0x7300_0000, 0x7F7F_FFFF, 0x7F80_0000, V),
    // Subnormal numbers.
    (ADD, 1, 1, 2, 0),
    (ADD, 1, 0x007F_FFFF, 0x0080_0000, 0),
    (ADD, 1, 0x8080_0000, 0x807F_FFFF, N),
    (ADD, 0xFF80_0000, 0x7F80_0000, 0x7FC0_0000, V),
    (ADD, 0x3F80_0000, 0xFF80_0000, 0xFF80_0000, N | V),
    // NaNs, the second one signalling.
    (ADD, 0x7FC1_2345, 0x3F80_0000, 0x7FC0_0000, V),
    (ADD, 0x3F80_0000, 0x7F80_0001, 0x7FC0_0000, V),
    (ADD, 0xFFC0_0000, 0xFFC0_0000, 0x7FC0_0000, V),
    (SUB, 0x3F80_0000, 0x4040_0000, 0x4000_0000, 0),
    (SUB, 0x4040_0000, 0x3F80_0000, 0xC000_0000, N),
    (SUB, 0, 0, 0, Z),
    (SUB, 0, 0x8000_0000, 0x8000_0000, Z),
    (SUB, 0x8000_0000, 0, 0, Z),
    (SUB, 0x8000_0000, 0x8000_0000, 0, Z),
    (SUB, 0x3F80_0000, 0x3F80_0001, 0x3400_0000, 0),
    (SUB, 1, 0x0080_0000, 0x007F_FFFF, 0),
    (SUB, 2, 1, 0x8000_0001, N),
    (SUB, 0x7F80_0000, 0x7F80_0000, 0x7FC0_0000, V),
    (SUB, 0x7F80_0000, 0x3F80_0000, 0xFF80_0000, N | V),
    (SUB, 0xFF7F_FFFF, 0x7F7F_FFFF, 0x7F80_0000, V),
    (SUB, 0xFF80_0001, 0, 0x7FC0_0000, V),
    (MULT, 0x3FC0_0000, 0x3FC0_0000, 0x4010_0000, 0),
    (MULT, 0xC000_0000, 0x3F80_0000, 0xC000_0000, N),
    (MULT, 0xBF80_0000, 0, 0x8000_0000, Z),
    (MULT, 0x3F80_0001, 0x3FC0_0000, 0x3FC0_0002, 0),
    (MULT, 0x3F80_0003, 0x3FC0_0000, 0x3FC0_0004, 0),
    (MULT, 0x4000_0000, 0x7F7F_FFFF, 0x7F80_0000, V),
    (MULT, 0xC000_0000, 0x7F7F_FFFF, 0xFF80_0000, N | V),
    (MULT, 0x3F00_0000, 0x0080_0000, 0x0040_0000, 0),
    // Half of the least number, and more than half of it.
    (MULT, 0x3F00_0000, 1, 0, Z),
    (MULT, 0x3F00_0000, 0x8000_0001, 0x8000_0000, Z),
    (MULT, 0x3F00_0001, 1, 1, 0),
    (MULT, 0x3F00_0000, 3, 2, 0),
    (MULT, 0x3F00_0000, 0x00FF_FFFF, 0x0080_0000, 0),
    (MULT, 0x7F80_0000, 0, 0x7FC0_0000, V),
    (MULT, 0x7F80_0000, 0xBF80_0000, 0xFF80_0000, N | V),
    (MULT, 0, 0x7FFF_FFFF, 0x7FC0_0000, V),
    (DIV, 0x4040_0000, 0x3F80_0000, 0x3EAA_AAAB, 0),
    (DIV, 0xC000_0000, 0x3F80_0000, 0xBF00_0000, N),
    (DIV, 0x4120_0000, 0x3F80_0000, 0x3DCC_CCCD, 0),
    // By zero.
    (DIV, 0, 0x3F80_0000, 0x7F80_0000, V),
    (DIV, 0x8000_0000, 0x3F80_0000, 0xFF80_0000, N | V),
    (DIV, 0, 0, 0x7FC0_0000, V),
    (DIV, 0, 0xFF80_0000, 0xFF80_0000, N | V),
    (DIV, 0x7F80_0000, 0x7F80_0000, 0x7FC0_0000, V),
    (DIV, 0x7F80_0000, 0x3F80_0000, 0, Z),
    (DIV, 0x7F80_0000, 0xBF80_0000, 0x8000_0000, Z),
    (DIV, 0x4000_0000, 1, 0, Z),
    (DIV, 0x4000_0000, 0x0080_0000, 0x0040_0000, 0),
    (DIV, 0x3F00_0000, 0x7F7F_FFFF, 0x7F80_0000, V),
    (DIV, 0x7F7F_FFFF, 0x3F80_0000, 0x0020_0000, 0),
    (DIV, 0xFFBF_FFFF, 0xFFBF_FFFF, 0x7FC0_0000, V),
];

const D: &[Worked] = &[
    (ADD, 0x3FF0_0000_0000_0000, 0x4000_0000_0000_0000, 0x4008_0000_0000_0000, 0),
    (ADD, 0x3CA0_0000_0000_0000, 0x3FF0_0000_0000_0000, 0x3FF0_0000_0000_0000, 0),
    (ADD, 0x3CA0_0000_0000_0000, 0x3FF0_0000_0000_0001, 0x3FF0_0000_0000_0002, 0),
    (ADD, 0x3CA0_0000_0000_0001, 0x3FF0_0000_0000_0000, 0x3FF0_0000_0000_0001, 0),
    (ADD, 0xBFF0_0000_0000_0000, 0x3FF0_0000_0000_0000, 0, Z),
    (ADD, 0x8000_0000_0000_0000, 0x8000_0000_0000_0000, 0x8000_0000_0000_0000, Z),
    (ADD, 0x8000_0000_0000_0000, 0, 0, Z),
    (ADD, 0x7FEF_FFFF_FFFF_FFFF, 0x7FEF_FFFF_FFFF_FFFF, 0x7FF0_0000_0000_0000, V),
    (ADD, 0xFFEF_FFFF_FFFF_FFFF, 0xFFEF_FFFF_FFFF_FFFF, 0xFFF0_0000_0000_0000, N | V),
    (ADD, 0x7C8F_FFFF_FFFF_FFFF, 0x7FEF_FFFF_FFFF_FFFF, 0x7FEF_FFFF_FFFF_FFFF, 0),
    (ADD, 0x7C90_0000_0000_0000, 0x7FEF_FFFF_FFFF_FFFF, 0x7FF0_0000_0000_0000, V),
    (ADD, 1, 1, 2, 0),
    (ADD, 1, 0x000F_FFFF_FFFF_FFFF, 0x0010_0000_0000_0000, 0),
    (ADD, 1, 0x8010_0000_0000_0000, 0x800F_FFFF_FFFF_FFFF, N),
    // 0.1 and 0.2.
    (ADD, 0x3FB9_9999_9999_999A, 0x3FC9_9999_9999_999A, 0x3FD3_3333_3333_3334, 0),
    (ADD, 0xFFF0_0000_0000_0000, 0x7FF0_0000_0000_0000, 0x7FF8_0000_0000_0000, V),
    (ADD, 0x3FF0_0000_0000_0000, 0x7FF0_0000_0000_0001, 0x7FF8_0000_0000_0000, V),
    // An F that is infinite or a NaN, in the high word, is neither as a D.
    (ADD, 0, 0x7F80_0000_0000_0000, 0x7F80_0000_0000_0000, 0),
    (ADD, 0, 0x7FC0_0000_0000_0000, 0x7FC0_0000_0000_0000, 0),
    // Zero in one of the words.
    (ADD, 0, 0x0000_0000_8000_0000, 0x0000_0000_8000_0000, 0),
    (ADD, 0x8000_0000_0000_0000, 0x8000_0000_8000_0000, 0x8000_0000_8000_0000, N),
    (SUB, 0x3FF0_0000_0000_0000, 0x4008_0000_0000_0000, 0x4000_0000_0000_0000, 0),
    (SUB, 0x4008_0000_0000_0000, 0x3FF0_0000_0000_0000, 0xC000_0000_0000_0000, N),
    (SUB, 0, 0x8000_0000_0000_0000, 0x8000_0000_0000_0000, Z),
    (SUB, 0x8000_0000_0000_0000, 0x8000_0000_0000_0000, 0, Z),
    (SUB, 0x3FF0_0000_0000_0000, 0x3FF0_0000_0000_0001, 0x3CB0_0000_0000_0000, 0),
    (SUB, 1, 0x0010_0000_0000_0000, 0x000F_FFFF_FFFF_FFFF, 0),
    (SUB, 0x7FF0_0000_0000_0000, 0x7FF0_0000_0000_0000, 0x7FF8_0000_0000_0000, V),
    (SUB, 0x7FF0_0000_0000_0000, 0x3FF0_0000_0000_0000, 0xFFF0_0000_0000_0000, N | V),
    (SUB, 0xFFF0_0000_0000_0001, 0, 0x7FF8_0000_0000_0000, V),
    (MULT, 0x3FF8_0000_0000_0000, 0x3FF8_0000_0000_0000, 0x4002_0000_0000_0000, 0),
    (MULT, 0xBFF0_0000_0000_0000, 0, 0x8000_0000_0000_0000, Z),
    (MULT, 0x3FF0_0000_0000_0001, 0x3FF8_0000_0000_0000, 0x3FF8_0000_0000_0002, 0),
    (MULT, 0x3FF0_0000_0000_0003, 0x3FF8_0000_0000_0000, 0x3FF8_0000_0000_0004, 0),
    (MULT, 0x4000_0000_0000_0000, 0x7FEF_FFFF_FFFF_FFFF, 0x7FF0_0000_0000_0000, V),
    (MULT, 0xC000_0000_0000_0000, 0x7FEF_FFFF_FFFF_FFFF, 0xFFF0_0000_0000_0000, N | V),
    (MULT, 0x3FE0_0000_0000_0000, 0x0010_0000_0000_0000, 0x0008_0000_0000_0000, 0),
    (MULT, 0x3FE0_0000_0000_0000, 1, 0, Z),
    (MULT, 0x3FE0_0000_0000_0000, 0x8000_0000_0000_0001, 0x8000_0000_0000_0000, Z),
    (MULT, 0x3FE0_0000_0000_0001, 1, 1, 0),
    (MULT, 0x3FE0_0000_0000_0000, 0x001F_FFFF_FFFF_FFFF, 0x0010_0000_0000_0000, 0),
    (MULT, 0x7FF0_0000_0000_0000, 0, 0x7FF8_0000_0000_0000, V),
    (MULT, 0, 0x7FFF_FFFF_FFFF_FFFF, 0x7FF8_0000_0000_0000, V),
    (DIV, 0x4008_0000_0000_0000, 0x3FF0_0000_0000_0000, 0x3FD5_5555_5555_5555, 0),
    (DIV, 0xC000_0000_0000_0000, 0x3FF0_0000_0000_0000, 0xBFE0_0000_0000_0000, N),
    (DIV, 0x4024_0000_0000_0000, 0x3FF0_0000_0000_0000, 0x3FB9_9999_9999_999A, 0),
    (DIV, 0, 0x3FF0_0000_0000_0000, 0x7FF0_0000_0000_0000, V),
    (DIV, 0x8000_0000_0000_0000, 0x3FF0_0000_0000_0000, 0xFFF0_0000_0000_0000, N | V),
    (DIV, 0, 0, 0x7FF8_0000_0000_0000, V),
    (DIV, 0x7FF0_0000_0000_0000, 0x7FF0_0000_0000_0000, 0x7FF8_0000_0000_0000, V),
    (DIV, 0x7FF0_0000_0000_0000, 0xBFF0_0000_0000_0000, 0x8000_0000_0000_0000, Z),
    (DIV, 0x4000_0000_0000_0000, 1, 0, Z),
    (DIV, 0x3FE0_0000_0000_0000, 0x7FEF_FFFF_FFFF_FFFF, 0x7FF0_0000_0000_0000, V),
    (DIV, 0x7FEF_FFFF_FFFF_FFFF, 0x3FF0_0000_0000_0000, 0x0004_0000_0000_0000, 0),
    (DIV, 0xFFF7_FFFF_FFFF_FFFF, 0xFFF7_FFFF_FFFF_FFFF, 0x7FF8_0000_0000_0000, V),
];

/// MOVE: bits, flags.
const MOVED_F: &[(u64, u32)] = &[
    (0, Z),
    (0x8000_0000, Z),
    (1, 0),
    (0x8000_0001, N),
    (0x3F80_0000, 0),
    (0xBF80_0000, N),
    (0x7F7F_FFFF, 0),
    (0xFF7F_FFFF, N),
    (0x7F80_0000, V),
    (0xFF80_0000, N | V),
    (0x7F80_0001, V),
    (0xFF80_0001, V),
    (0x7FC0_0000, V),
    (0xFFFF_FFFF, V),
];

const MOVED_D: &[(u64, u32)] = &[
    (0, Z),
    (0x8000_0000_0000_0000, Z),
    (1, 0),
    (0x8000_0000_0000_0001, N),
    (0x3FF0_0000_0000_0000, 0),
    (0xBFF0_0000_0000_0000, N),
    (0x7FEF_FFFF_FFFF_FFFF, 0),
    (0xFFEF_FFFF_FFFF_FFFF, N),
    (0x7FF0_0000_0000_0000, V),
    (0xFFF0_0000_0000_0000, N | V),
    (0x7FF0_0000_0000_0001, V),
    (0xFFF0_0000_0000_0001, V),
    (0x7FF8_0000_0000_0000, V),
    (0xFFFF_FFFF_FFFF_FFFF, V),
];

/// CMP: first and second operand, flags.
const COMPARED_F: &[(u64, u64, u32)] = &[
    (0x3F80_0000, 0x4000_0000, N),
    (0x4000_0000, 0x3F80_0000, 0),
    (0x3F80_0000, 0x3F80_0000, Z),
    (0, 0x8000_0000, Z),
    (0x8000_0000, 0, Z),
    (0xC000_0000, 0xBF80_0000, N),
    (0xBF80_0000, 0xC000_0000, 0),
    (0xBF80_0000, 0x3F80_0000, N),
    (0x3F80_0000, 0xBF80_0000, 0),
    (0x8000_0001, 0, N),
    (0, 1, N),
    (1, 0x8000_0000, 0),
    (0x7F80_0000, 0x7F80_0000, Z),
    (0xFF80_0000, 0x7F80_0000, N),
    (0x7F80_0000, 0x7F7F_FFFF, 0),
    (0x7FC0_0000, 0x7FC0_0000, V),
    (0x3F80_0000, 0x7FC0_0000, V),
    (0xFFC0_0000, 0x3F80_0000, V),
    (0x7F80_0001, 0xFF80_0000, V),
];

const COMPARED_D: &[(u64, u64, u32)] = &[
    (0x3FF0_0000_0000_0000, 0x3FF0_0000_0000_0001, N),
    (0x3FF0_0000_0000_0001, 0x3FF0_0000_0000_0000, 0),
    (0x3FF0_0000_8000_0000, 0x3FF0_0000_8000_0000, Z),
    (0x3FF0_0000_8000_0000, 0x3FF0_0000_7FFF_FFFF, 0),
    (0xBFF0_0000_8000_0000, 0xBFF0_0000_7FFF_FFFF, N),
    (0, 0x8000_0000_0000_0000, Z),
    (0x8000_0000_0000_0000, 0, Z),
    (0x8000_0000_0000_0001, 0, N),
    (0xFFF0_0000_0000_0000, 0x7FF0_0000_0000_0000, N),
    (0x7FF0_0000_0000_0000, 0x7FF0_0000_0000_0000, Z),
    (0x7FF0_0000_0000_0000, 0x7FEF_FFFF_FFFF_FFFF, 0),
    (0x7FF8_0000_0000_0000, 0x7FF8_0000_0000_0000, V),
    (0x3FF0_0000_0000_0000, 0x7FF0_0000_0000_0001, V),
    (0xFFF8_0000_0000_0000, 0xFFF0_0000_0000_0000, V),
];

/// Where the first operand, the second and the result stand, in turn in registers and in memory.
const FIRST: [Place; 2] = [Place::Register(0), Place::At(0x800)];
const SECOND: [Place; 2] = [Place::Register(2), Place::At(0x810)];
const RESULT: [Place; 2] = [Place::Register(4), Place::At(0x820)];

fn pairs(first: [Place; 2], second: [Place; 2]) -> impl Iterator<Item = (Place, Place)> {
    first.into_iter().flat_map(move |first| second.map(|second| (first, second)))
}

/// A command on two numbers: it must leave the result, if any, at a place.
fn check(code: u8, size: usize, a: (Place, u64), b: (Place, u64), to: Option<Place>, result: u64, flags: u32) {
    let mut operands = vec![a.0.operand(), b.0.operand()];
    // A third operand, unless the second is updated.
    if let Some(to) = to.filter(|_| code & 4 != 0) {
        operands.push(to.operand());
    }
    let mut before = Trial::new(code, &operands);
    before.set(a.0, size, a.1);
    before.set(b.0, size, b.1);
    for before in before.in_both_modes() {
        let mut after = before.done(flags);
        if let Some(to) = to {
            after.set(to, size, result);
        }
        before.must_leave(&after, (code, a, b, to, result, flags));
    }
}

#[test]
fn results() {
    for (size, j, worked) in [(4, 0, F), (8, 1, D)] {
        for (operation, a, b, result, flags) in worked.iter().copied() {
            for (first, second) in pairs(FIRST, SECOND) {
                check(operation + j, size, (first, a), (second, b), Some(second), result, flags);
                for to in RESULT {
                    check(operation + 4 + j, size, (first, a), (second, b), Some(to), result, flags);
                }
            }
        }
    }
}

#[test]
fn moves() {
    for (size, j, moved) in [(4, 0, MOVED_F), (8, 1, MOVED_D)] {
        for (bits, flags) in moved.iter().copied() {
            for (from, to) in pairs(FIRST, RESULT) {
                check(MOVE + j, size, (from, bits), (to, 0), Some(to), bits, flags);
            }
        }
    }
}

#[test]
fn comparisons() {
    for (size, j, compared) in [(4, 0, COMPARED_F), (8, 1, COMPARED_D)] {
        for (a, b, flags) in compared.iter().copied() {
            for (first, second) in pairs(FIRST, SECOND) {
                check(CMP + j, size, (first, a), (second, b), None, 0, flags);
            }
        }
    }
}

/// Form 1 has the bits of an F, NaNs too.
#[test]
fn values() {
    let to = Place::Register(4);
    for (bits, flags) in MOVED_F.iter().copied() {
        let before = Trial::new(MOVE, &[value(bits as u32), to.operand()]);
        let mut after = before.done(flags);
        after.set(to, 4, bits);
        before.must_leave(&after, bits);
    }
    for (operation, a, b, result, flags) in F.iter().copied() {
        let before = Trial::new(operation + 4, &[value(a as u32), value(b as u32), to.operand()]);
        let mut after = before.done(flags);
        after.set(to, 4, result);
        before.must_leave(&after, (operation, a, b));
    }
}
