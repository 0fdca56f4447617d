//! Results and flags of the integer commands ("One step", 000 2.5.1 to 2.5.5).

use crate::code::Op;
use crate::state::*;

/// The low `size` bytes set.
pub fn mask(size: u32) -> u32 {
    match size {
        1 => 0xFF,
        2 => 0xFFFF,
        _ => 0xFFFF_FFFF,
    }
}

/// The value as a number with sign (000, 1.1.2): minus 2^n when the highest bit is set.
pub fn signed(value: u32, size: u32) -> i64 {
    let natural = i64::from(value & mask(size));
    let bits = 8 * size;
    if natural >> (bits - 1) == 1 {
        natural - (1i64 << bits)
    } else {
        natural
    }
}

/// Whether an exact result fits a number with sign of `size` bytes.
fn fits(exact: i64, size: u32) -> bool {
    let half = 1i64 << (8 * size - 1);
    -half <= exact && exact < half
}

/// A bit, if it is on.
pub fn flag(bit: u32, on: bool) -> u32 {
    if on {
        bit
    } else {
        0
    }
}

/// N and Z from a result of `size` bytes.
fn sign_and_zero(value: u32, size: u32) -> u32 {
    flag(N, signed(value, size) < 0) | flag(Z, value & mask(size) == 0)
}

/// Result (modulo 256^L) and flags of a command that sets flags; `None` is DIV by zero.
/// `first` and `second` are the operands' values; the result of CMP is written nowhere.
pub fn apply(op: Op, first: u32, second: u32, size: u32) -> Option<(u32, u32)> {
    // With sign and without.
    let (a, b) = (signed(first, size), signed(second, size));
    let (ua, ub) = (first & mask(size), second & mask(size));
    let (exact, v, c) = match op {
        Op::Clear => (0, false, false),
        Op::Move | Op::Movea => (i64::from(ua), false, false),
        Op::Moven => (-a, !fits(-a, size), ua != 0),
        Op::Movec => (i64::from(!ua), false, false),
        Op::Or => (i64::from(ub | ua), false, false),
        Op::Andnot => (i64::from(ub & !ua), false, false),
        Op::Xor => (i64::from(ub ^ ua), false, false),
        Op::Add => (b + a, !fits(b + a, size), u64::from(ub) + u64::from(ua) > u64::from(mask(size))),
        Op::Sub => (b - a, !fits(b - a, size), ub < ua),
        Op::Mult => (b * a, !fits(b * a, size), false),
        Op::Div if a == 0 => return None,
        // The fraction is dropped; lowest ÷ −1 doesn't fit.
        Op::Div => (b / a, !fits(b / a, size), false),
        // B to W: the sign fills the higher bytes.
        Op::Conv => return Some(whole(signed(first, 1) as u32, false)),
        Op::Sh => return Some(shift(a, second)),
        Op::Rot => return Some(whole(rotated(a, second), false)),
        Op::Cmp => return Some((0, flag(N, a < b) | flag(Z, a == b))),
        _ => panic!("{op:?} keeps flags"),
    };
    let value = exact as u32 & mask(size);
    Some((value, sign_and_zero(value, size) | flag(V, v) | flag(C, c)))
}

/// A result of four bytes with its flags.
fn whole(value: u32, v: bool) -> (u32, u32) {
    (value, sign_and_zero(value, 4) | flag(V, v))
}

/// SH: left by the count, or right by its negative, one bit at a time. After
/// 64 single shifts nothing changes any more.
fn shift(count: i64, operand: u32) -> (u32, u32) {
    let mut value = operand;
    for _ in 0..count.unsigned_abs().min(64) {
        if count > 0 {
            value <<= 1;
        } else {
            value = value >> 1 | value & 0x8000_0000;
        }
    }
    whole(value, count >= 0 && !product_fits(signed(operand, 4), count))
}

/// Whether the operand times 2 to the power of the count, as a whole number, fits a word with sign
/// (request F-2). The number is doubled exactly, once for each place. Where the rest of the count
/// can't matter it is left out: 0 stays 0, and a number that doesn't fit never does so again, since
/// doubling leads it farther from 0. No number here is farther from 0 than 2^32.
fn product_fits(operand: i64, count: i64) -> bool {
    let mut product = operand;
    for _ in 0..count {
        product *= 2;
        if product == 0 || !fits(product, 4) {
            break;
        }
    }
    fits(product, 4)
}

/// ROT: cyclic, left by the count or right by its negative; 32 single
/// rotations give the operand back.
fn rotated(count: i64, operand: u32) -> u32 {
    let times = (count.unsigned_abs() % 32) as u32;
    if count > 0 {
        operand.rotate_left(times)
    } else {
        operand.rotate_right(times)
    }
}

/// Whether a jump (70h to 78h) is taken.
pub fn taken(byte: u8, status: u32) -> bool {
    let n = status & N != 0;
    let z = status & Z != 0;
    let v = status & V != 0;
    let c = status & C != 0;
    match byte {
        0x70 => true,
        0x71 => z,
        0x72 => !z,
        0x73 => !n && !z,
        0x74 => !n,
        0x75 => n,
        0x76 => n || z,
        0x77 => v,
        _ => c,
    }
}
