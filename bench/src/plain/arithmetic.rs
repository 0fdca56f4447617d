//! Results and flags.
//!
//! A value of `SIZE` bytes (1, 2 or 4) is moved to the high end of a word: there carry, overflow and sign are the
//! word's own.

use crate::state::State;

pub const N: u32 = 8;
pub const Z: u32 = 4;
pub const V: u32 = 2;
pub const C: u32 = 1;

/// The operations of two values: the byte of their first command. DIV is there for floating numbers only.
pub const OR: u8 = 0x28;
pub const ANDNOT: u8 = 0x30;
pub const XOR: u8 = 0x38;
pub const ADD: u8 = 0x40;
pub const SUB: u8 = 0x48;
pub const MULT: u8 = 0x50;
pub const DIV: u8 = 0x58;
pub const SH: u8 = 0x60;

const fn shift<const SIZE: usize>() -> usize {
    32 - 8 * SIZE
}

/// A result with V and C; N and Z follow from it.
#[derive(Clone, Copy)]
pub struct Outcome {
    /// At the high end.
    high: u32,
    v: bool,
    c: bool,
}

impl Outcome {
    pub fn of<const SIZE: usize>(value: u32) -> Outcome {
        Outcome { high: value << shift::<SIZE>(), v: false, c: false }
    }

    pub fn value<const SIZE: usize>(self) -> u32 {
        self.high >> shift::<SIZE>()
    }

    #[inline(always)]
    pub fn set_flags(self, desk: &mut State) {
        set_flags(desk, (self.high as i32) < 0, self.high == 0, self.v, self.c);
    }
}

#[inline(always)]
pub fn set_flags(desk: &mut State, n: bool, z: bool, v: bool, c: bool) {
    let flags = u32::from(n) << 3 | u32::from(z) << 2 | u32::from(v) << 1 | u32::from(c);
    desk.status = desk.status & !15 | flags;
}

/// The operation's result, b being the second operand.
#[inline(always)]
pub fn operate<const SIZE: usize, const OPERATION: u8>(a: u32, b: u32) -> Outcome {
    let (a, b) = (a << shift::<SIZE>(), b << shift::<SIZE>());
    let bits = |high| Outcome { high, v: false, c: false };
    match OPERATION {
        OR => bits(b | a),
        ANDNOT => bits(b & !a),
        XOR => bits(b ^ a),
        ADD => {
            let (high, c) = b.overflowing_add(a);
            Outcome { high, v: (b as i32).overflowing_add(a as i32).1, c }
        }
        SUB => {
            let (high, c) = b.overflowing_sub(a);
            Outcome { high, v: (b as i32).overflowing_sub(a as i32).1, c }
        }
        MULT => {
            let (high, v) = (b as i32).overflowing_mul(a as i32 >> shift::<SIZE>());
            Outcome { high: high as u32, v, c: false }
        }
        _ => shifted(a, b),
    }
}

/// SH: a word shifted to the left, or to the right where the count is negative. To the left V is set
/// where shifting back does not give the word.
#[inline(always)]
fn shifted(count: u32, value: u32) -> Outcome {
    let right = |word: u32, places: u32| (word as i32 >> places.min(31)) as u32;
    if (count as i32) < 0 {
        return Outcome::of::<4>(right(value, count.wrapping_neg()));
    }
    let high = value.checked_shl(count).unwrap_or(0);
    Outcome { high, v: right(high, count) != value, c: false }
}

/// CMP's flags.
#[inline(always)]
pub fn compare<const SIZE: usize>(desk: &mut State, a: u32, b: u32) {
    let (a, b) = ((a << shift::<SIZE>()) as i32, (b << shift::<SIZE>()) as i32);
    set_flags(desk, a < b, a == b, false, false);
}
