//! Floating arithmetic once more, on whole numbers and bit by bit from 000, 1.1.3, with rounding to
//! nearest, ties to even. It tells how a result came about: coverage counts that, and the unit tests
//! compare these results with those of `floats.rs`.

use crate::code::{FloatOp, Format};
use crate::floats::{Number, LONG_NAN, SHORT_NAN};

/// How the result of an operation came about. Rounding is of the number without its sign.
#[derive(Clone, Copy, PartialEq, Eq, PartialOrd, Ord, Debug)]
pub enum How {
    NanOperand,
    /// NaN from operands that are none.
    Invalid,
    InfiniteOperand,
    DivisionByZero,
    ExactZero,
    Exact,
    Down,
    Up,
    /// From a little below a tie, or from a little above it: by less than a 4,096th of its half.
    CloseDown,
    CloseUp,
    TieDown,
    TieUp,
    /// Up to the next power of 2.
    Carried,
    SubnormalExact,
    SubnormalDown,
    SubnormalUp,
    SubnormalCloseDown,
    SubnormalCloseUp,
    SubnormalTieDown,
    SubnormalTieUp,
    /// From below the smallest normalised number up to it.
    Normalised,
    /// Too small for the smallest subnormal number.
    ToZero,
    TieToZero,
    /// From above the greatest number down to it.
    ToGreatest,
    Overflow,
    TieOverflow,
}

/// The parts of a number (000, 1.1.3).
#[derive(Clone, Copy, PartialEq, Eq, Debug)]
pub struct Parts {
    format: Format,
    pub negative: bool,
    exponent: u64,
    fraction: u64,
}

/// The exponent's bits m and the fraction's bits n (000, table 1.1).
pub fn widths(format: Format) -> (u32, u32) {
    match format {
        Format::D => (11, 52),
        _ => (8, 23),
    }
}

/// The power of 2 that the last bit of a subnormal number stands for.
fn least(format: Format) -> i32 {
    let (m, n) = widths(format);
    2 - (1 << (m - 1)) - n as i32
}

impl Parts {
    pub fn of(number: Number) -> Parts {
        let format = match number {
            Number::Short(_) => Format::F,
            Number::Long(_) => Format::D,
        };
        let (m, n) = widths(format);
        let bits = number.bits();
        let (exponent, fraction) = (bits >> n & ((1 << m) - 1), bits & ((1 << n) - 1));
        Parts { format, negative: bits >> (m + n) == 1, exponent, fraction }
    }

    /// Infinite or NaN.
    fn beyond(&self) -> bool {
        self.exponent == (1 << widths(self.format).0) - 1
    }

    pub fn nan(&self) -> bool {
        self.beyond() && self.fraction != 0
    }

    /// The highest bit of a quiet NaN's fraction is set.
    pub fn quiet(&self) -> bool {
        self.nan() && self.fraction >> (widths(self.format).1 - 1) == 1
    }

    pub fn infinite(&self) -> bool {
        self.beyond() && self.fraction == 0
    }

    pub fn subnormal(&self) -> bool {
        self.exponent == 0 && self.fraction != 0
    }

    pub fn zero(&self) -> bool {
        self.exponent == 0 && self.fraction == 0
    }

    /// A whole number and a power of 2 whose product a finite number is, without its sign.
    fn whole(&self) -> (u128, i32) {
        let one = u128::from(self.exponent > 0) << widths(self.format).1;
        (one | u128::from(self.fraction), least(self.format) + (self.exponent as i32 - 1).max(0))
    }
}

/// An exact number: whole × 2^power, and more than that by less than 2^power where `more` says so.
struct Exact {
    negative: bool,
    whole: u128,
    power: i32,
    more: bool,
}

fn length(whole: u128) -> i32 {
    (u128::BITS - whole.leading_zeros()) as i32
}

/// The sum of two finite numbers that are not both zero; `None` where it is zero.
fn sum(a: &Parts, b: &Parts) -> Option<Exact> {
    let ((wa, pa), (wb, pb)) = (a.whole(), b.whole());
    let (high, low) = if pa >= pb { ((wa, pa, a.negative), (wb, pb)) } else { ((wb, pb, b.negative), (wa, pa)) };
    let apart = (high.1 - low.1) as u32;
    let differ = a.negative != b.negative;
    if apart > 70 {
        // The high one is normalised, and the low one is less than 1 where 17 bits are added to it.
        let whole = high.0 << 17;
        let more = low.0 > 0;
        return Some(Exact {
            negative: high.2,
            whole: if differ && more { whole - 1 } else { whole },
            power: high.1 - 17,
            more,
        });
    }
    let whole = high.0 << apart;
    if !differ {
        return Some(Exact { negative: a.negative, whole: whole + low.0, power: low.1, more: false });
    }
    let negative = if whole >= low.0 { high.2 } else { !high.2 };
    let whole = whole.abs_diff(low.0);
    (whole > 0).then_some(Exact { negative, whole, power: low.1, more: false })
}

/// The quotient of two finite numbers other than zero.
fn quotient(dividend: &Parts, divisor: &Parts) -> Exact {
    let ((wa, pa), (wb, pb)) = (dividend.whole(), divisor.whole());
    let room = 127 - length(wa);
    let wide = wa << room;
    Exact {
        negative: dividend.negative != divisor.negative,
        whole: wide / wb,
        power: pa - room - pb,
        more: wide % wb != 0,
    }
}

/// Rounds to nearest, ties to even. The whole number isn't 0.
fn round(format: Format, exact: &Exact) -> (u64, How) {
    let n = widths(format).1;
    // The power of 2 of the result's last bit.
    let last = (exact.power + length(exact.whole) - 1 - n as i32).max(least(format));
    let cut = last - exact.power;
    let (kept, rest, half) = match cut {
        ..=0 => (exact.whole << -cut, 0, 1),
        1..=127 => (exact.whole >> cut, exact.whole & ((1 << cut) - 1), 1 << (cut - 1)),
        // Less than half of the smallest number.
        _ => (0, 1, 2),
    };
    assert!(cut > 0 || !exact.more);
    let tie = rest == half && !exact.more;
    let up = rest > half || rest == half && exact.more || tie && kept % 2 == 1;
    let inexact = rest != 0 || exact.more;
    let close = inexact && !tie && rest.abs_diff(half) <= half >> 12;
    // A fraction that overflows carries into the exponent, as the bits stand.
    let bits = |kept: u128| match kept >> n {
        0 => kept as u64,
        _ => (((last - least(format)) as u64 + 1) << n) + (kept as u64 - (1 << n)),
    };
    let infinity = ((1 << widths(format).0) - 1) << n;
    let (below, above) = (bits(kept), bits(kept + 1));
    let result = if up { above } else { below };
    let subnormal = below < 1 << n;
    let how = match (inexact, up, tie) {
        _ if below >= infinity => How::Overflow,
        (_, true, true) if result == infinity => How::TieOverflow,
        (_, true, _) if result == infinity => How::Overflow,
        (true, false, _) if above == infinity => How::ToGreatest,
        (true, false, true) if result == 0 => How::TieToZero,
        (true, false, _) if result == 0 => How::ToZero,
        (_, true, _) if subnormal && result == 1 << n => How::Normalised,
        (_, true, _) if !subnormal && result % (1 << n) == 0 => How::Carried,
        (false, ..) if subnormal => How::SubnormalExact,
        (_, false, true) if subnormal => How::SubnormalTieDown,
        (_, true, true) if subnormal => How::SubnormalTieUp,
        (_, false, _) if subnormal && close => How::SubnormalCloseDown,
        (_, true, _) if subnormal && close => How::SubnormalCloseUp,
        (_, false, _) if subnormal => How::SubnormalDown,
        (_, true, _) if subnormal => How::SubnormalUp,
        (false, ..) => How::Exact,
        (_, false, true) => How::TieDown,
        (_, true, true) => How::TieUp,
        (_, false, _) if close => How::CloseDown,
        (_, true, _) if close => How::CloseUp,
        (_, false, _) => How::Down,
        (_, true, _) => How::Up,
    };
    (result.min(infinity), how)
}

/// The result of an operation on the numbers of a command's first and second operand.
pub fn operate(op: FloatOp, first: Number, second: Number) -> (Number, How) {
    let (mut a, b) = (Parts::of(first), Parts::of(second));
    let format = a.format;
    assert_eq!(format, b.format);
    let infinity = ((1 << widths(format).0) - 1) << widths(format).1;
    let nan = if format == Format::D { LONG_NAN } else { u64::from(SHORT_NAN) };
    let signed = |negative: bool, bits: u64, how| {
        let (m, n) = widths(format);
        (Number::of(format, u64::from(negative) << (m + n) | bits), how)
    };
    if a.nan() || b.nan() {
        return signed(false, nan, How::NanOperand);
    }
    if op == FloatOp::Sub {
        a.negative = !a.negative;
    }
    let unlike = a.negative != b.negative;
    let exact = match op {
        FloatOp::Add | FloatOp::Sub => {
            if a.infinite() && b.infinite() && unlike {
                return signed(false, nan, How::Invalid);
            }
            if a.infinite() || b.infinite() {
                return signed(if a.infinite() { a.negative } else { b.negative }, infinity, How::InfiniteOperand);
            }
            if a.zero() && b.zero() {
                return signed(a.negative && b.negative, 0, How::ExactZero);
            }
            match sum(&a, &b) {
                Some(exact) => exact,
                None => return signed(false, 0, How::ExactZero),
            }
        }
        FloatOp::Mult => {
            if a.infinite() && b.zero() || a.zero() && b.infinite() {
                return signed(false, nan, How::Invalid);
            }
            if a.infinite() || b.infinite() {
                return signed(unlike, infinity, How::InfiniteOperand);
            }
            if a.zero() || b.zero() {
                return signed(unlike, 0, How::ExactZero);
            }
            let ((wa, pa), (wb, pb)) = (a.whole(), b.whole());
            Exact { negative: unlike, whole: wa * wb, power: pa + pb, more: false }
        }
        FloatOp::Div => {
            if a.infinite() && b.infinite() || a.zero() && b.zero() {
                return signed(false, nan, How::Invalid);
            }
            if b.infinite() {
                return signed(unlike, infinity, How::InfiniteOperand);
            }
            if a.infinite() {
                return signed(unlike, 0, How::InfiniteOperand);
            }
            if a.zero() {
                return signed(unlike, infinity, How::DivisionByZero);
            }
            if b.zero() {
                return signed(unlike, 0, How::ExactZero);
            }
            quotient(&b, &a)
        }
        FloatOp::Move | FloatOp::Cmp => panic!("{op:?} has no result of its own"),
    };
    let (bits, how) = round(format, &exact);
    signed(exact.negative, bits, how)
}
