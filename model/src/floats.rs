//! Results and flags of the commands on floating numbers (request F-6; 000, 1.1.3). The operations
//! are those of f32 and f64, which round to nearest, ties to even, and know subnormal numbers.

use crate::arith::flag;
use crate::code::{FloatOp, Format};
use crate::state::*;
use std::cmp::Ordering;
use std::ops;

/// A floating number by its bits: a short or a long one. It is never turned into the other kind.
#[derive(Clone, Copy, PartialEq, Eq, PartialOrd, Ord, Debug)]
pub enum Number {
    Short(u32),
    Long(u64),
}

use Number::{Long, Short};

/// A NaN result.
pub const SHORT_NAN: u32 = 0x7FC0_0000;
pub const LONG_NAN: u64 = 0x7FF8_0000_0000_0000;

impl Number {
    /// The number that an operand of a floating format has as its bits.
    pub fn of(format: Format, bits: u64) -> Number {
        match format {
            Format::D => Long(bits),
            _ => Short(bits as u32),
        }
    }

    pub fn bits(self) -> u64 {
        match self {
            Short(bits) => u64::from(bits),
            Long(bits) => bits,
        }
    }
}

/// What the flags are told of a number.
struct Seen {
    below_zero: bool,
    zero: bool,
    infinite: bool,
    nan: bool,
}

/// A number of either kind, with zero and both infinities of its kind.
fn seen<T: PartialOrd>(x: T, zero: T, infinities: [T; 2]) -> Seen {
    Seen { below_zero: x < zero, zero: x == zero, infinite: infinities.contains(&x), nan: x.partial_cmp(&x).is_none() }
}

/// N: below zero, Z: either zero, V: infinite or NaN, C clear; for both kinds.
fn flags(number: Number) -> u32 {
    let Seen { below_zero, zero, infinite, nan } = match number {
        Short(bits) => seen(f32::from_bits(bits), 0.0, [f32::INFINITY, f32::NEG_INFINITY]),
        Long(bits) => seen(f64::from_bits(bits), 0.0, [f64::INFINITY, f64::NEG_INFINITY]),
    };
    flag(N, below_zero) | flag(Z, zero) | flag(V, infinite || nan)
}

/// CMP: Z if equal, N if first < second; V alone with a NaN, which has no order.
fn compared(first: Number, second: Number) -> u32 {
    let order = match (first, second) {
        (Short(a), Short(b)) => f32::from_bits(a).partial_cmp(&f32::from_bits(b)),
        (Long(a), Long(b)) => f64::from_bits(a).partial_cmp(&f64::from_bits(b)),
        _ => panic!("two kinds in one command"),
    };
    match order {
        Some(Ordering::Equal) => Z,
        Some(Ordering::Less) => N,
        Some(Ordering::Greater) => 0,
        None => V,
    }
}

/// The operation of either kind: second + first, second - first and so on (000, 2.5.3).
fn operate<T>(op: FloatOp, a: T, b: T) -> T
where
    T: ops::Add<Output = T> + ops::Sub<Output = T> + ops::Mul<Output = T> + ops::Div<Output = T>,
{
    match op {
        FloatOp::Add => b + a,
        FloatOp::Sub => b - a,
        FloatOp::Mult => b * a,
        FloatOp::Div => b / a,
        FloatOp::Move | FloatOp::Cmp => panic!("{op:?} has no result of its own"),
    }
}

/// The result of an operation; a NaN is always the same one.
fn result(op: FloatOp, first: Number, second: Number) -> Number {
    match (first, second) {
        (Short(a), Short(b)) => {
            let short = operate(op, f32::from_bits(a), f32::from_bits(b));
            Short(if short.is_nan() { SHORT_NAN } else { short.to_bits() })
        }
        (Long(a), Long(b)) => {
            let long = operate(op, f64::from_bits(a), f64::from_bits(b));
            Long(if long.is_nan() { LONG_NAN } else { long.to_bits() })
        }
        _ => panic!("two kinds in one command"),
    }
}

/// Result and flags of a command; the result of CMP is written nowhere. MOVE keeps the bits, those
/// of a signalling NaN too, so that its number is never worked with.
pub fn apply(op: FloatOp, first: Number, second: Number) -> (Number, u32) {
    match op {
        FloatOp::Cmp => (first, compared(first, second)),
        FloatOp::Move => (first, flags(first)),
        _ => {
            let result = result(op, first, second);
            (result, flags(result))
        }
    }
}
