//! Pairs of floating numbers (request F-6) whose results come about in each way that is possible: by
//! each kind of rounding, up to a power of 2, around the smallest and the greatest number.

use super::family_rng;
use super::float_pairs::{byte_of, paged};
use super::float_values::{all_bits, any_number, bytes_of, power, sign};
use crate::asm::*;
use crate::case::Case;
use crate::code::{FloatOp, Format};
use crate::exact::{operate, widths, How};
use crate::float_table::possible;
use crate::floats::Number;
use crate::rng::Rng;
use crate::state::*;

/// Pairs for each way.
const EACH: usize = 8;

/// The bits of a whole number times 2 to a power; it has at most n + 1 bits.
fn scaled(format: Format, whole: u64, by: i64) -> u64 {
    let n = widths(format).1;
    let length = 64 - whole.leading_zeros();
    assert!(0 < length && length <= n + 1);
    let fraction = whole << (n + 1 - length) & ((1 << n) - 1);
    power(format, by + i64::from(length) - 1) | fraction
}

/// Two numbers whose product lies a little below a power of 2, or below what a few of the last bits
/// are short of it: rounding carries, or leads down to the greatest number.
fn close_product(rng: &mut Rng, format: Format) -> (u64, u64) {
    let (m, n) = widths(format);
    let bias = (1i64 << (m - 1)) - 1;
    let short = rng.pick(&[0, 1 << (n - 2), 1 << (n - 1), 3 << (n - 2)]);
    let one = 1 << n | rng.next() & ((1 << n) - 1);
    let other = (((1u128 << (2 * n + 1)) - short) / u128::from(one)) as u64;
    if other >> (n + 1) > 0 {
        return (power(format, 0), power(format, 0));
    }
    let by = rng.pick(&[-i64::from(n), bias - 2 * i64::from(n)]);
    (scaled(format, one, by), scaled(format, other, 0))
}

/// Two whole numbers whose product has one bit too many: half of a step above the greatest number,
/// or a tie elsewhere.
fn tied_product(rng: &mut Rng, format: Format) -> (u64, u64) {
    let (m, n) = widths(format);
    let bias = (1i64 << (m - 1)) - 1;
    if rng.chance(50) {
        return (scaled(format, 3, 0), scaled(format, 1 << n | rng.next() & ((1 << (n - 2)) - 1) | 1, 0));
    }
    // Their product is 2 to the power of n + 2, less 1.
    let (one, other) = match format {
        Format::D => ((1 << 27) - 1, (1 << 27) + 1),
        _ => (31, 1_082_401),
    };
    (scaled(format, one, bias - i64::from(n) - 1), scaled(format, other, 0))
}

/// Two normalised numbers whose product or quotient (second by first) is subnormal, or nearly so.
fn small_result(rng: &mut Rng, op: FloatOp, format: Format) -> (u64, u64) {
    let (m, n) = widths(format);
    let bias = (1i64 << (m - 1)) - 1;
    let small = -bias / 2 - i64::from(rng.below(n));
    let mut any = |exponent| power(format, exponent) | rng.next() & ((1 << n) - 1);
    let first = any(if op == FloatOp::Div { bias / 2 } else { -bias / 2 });
    (first, any(small))
}

/// A pair that may come about in a rare way.
fn candidate(rng: &mut Rng, op: FloatOp, format: Format) -> (u64, u64) {
    let n = i64::from(widths(format).1);
    let signs = [rng.next() & sign(format), rng.next() & sign(format)];
    let (first, second) = match rng.below(10) {
        3 if op == FloatOp::Mult => close_product(rng, format),
        4 if op == FloatOp::Mult => tied_product(rng, format),
        0 | 1 if matches!(op, FloatOp::Mult | FloatOp::Div) => small_result(rng, op, format),
        // Any fractions.
        2 => {
            let mut any = || power(format, 0) | rng.next() & ((1 << n) - 1);
            (any(), any())
        }
        // A small power of 2 and a small subnormal number.
        5 => (power(format, i64::from(rng.below(4)) - 2), u64::from(rng.below(64))),
        // Any bits, and a number that is about as small as the step above 1.
        6 => {
            let whole = 1 + u64::from(rng.below(7));
            (rng.next() & (all_bits(format) >> 1), scaled(format, whole, -n - 3 + i64::from(rng.below(6))))
        }
        // A little above 1, and a little below a power of 2.
        7 => {
            let below = (2 << n) - 1 - u64::from(rng.below(3));
            (scaled(format, 1 << n | rng.next() & 7, -n), scaled(format, below, -n - i64::from(rng.below(3))))
        }
        _ => (any_number(rng, format), any_number(rng, format)),
    };
    (first ^ signs[0], second ^ signs[1])
}

/// Pairs that come about in each possible way.
fn found(rng: &mut Rng, op: FloatOp, format: Format) -> Vec<(u64, u64)> {
    let mut list = Vec::new();
    let mut left: Vec<(How, usize)> = possible(op).into_iter().map(|how| (how, EACH)).collect();
    for _ in 0..4_000_000 {
        let (first, second) = candidate(rng, op, format);
        let how = operate(op, Number::of(format, first), Number::of(format, second)).1;
        if let Some(place) = left.iter().position(|(wanted, _)| *wanted == how) {
            list.push((first, second));
            left[place].1 -= 1;
            left.retain(|(_, count)| *count > 0);
        }
        if left.is_empty() {
            break;
        }
    }
    assert!(left.is_empty(), "{op:?} {format:?}: {left:?}");
    list
}

/// Commands with two and three operands by turns, in memory and in registers, each with flags that
/// the one before left.
pub fn near() -> Vec<Case> {
    let mut rng = family_rng("float near");
    let mut cases = Vec::new();
    for format in [Format::F, Format::D] {
        for op in [FloatOp::Add, FloatOp::Sub, FloatOp::Mult, FloatOp::Div] {
            let pairs = found(&mut rng, op, format);
            let kernel = rng.chance(50);
            let (mut desk, base) = paged(&mut rng, kernel, 24);
            let mut at = base + 9 * FRAME_BYTES + 5;
            let mut state = desk.maker.state;
            state.registers[3] = base + 18 * FRAME_BYTES + 1;
            desk.maker.begin(state);
            for (i, (first, second)) in pairs.into_iter().enumerate() {
                let [one, other] = [at, at + format.size()];
                desk.lay_at(one, &bytes_of(first, format));
                desk.lay_at(other, &bytes_of(second, format));
                at += 2 * format.size();
                let operands = match i % 3 {
                    0 => vec![absolute(one), absolute(other)],
                    1 => vec![absolute(one), absolute(other), register(4 + 2 * (i as u8 % 5))],
                    _ => vec![absolute(one), absolute(other), raised(3)],
                };
                desk.maker.code(&command(byte_of(op, format, i % 3 > 0), &operands));
                assert_eq!(desk.maker.step().event, Event::Plain);
            }
            cases.push(desk.maker.finish_true().expect("pairs that play as they were made"));
        }
    }
    cases
}
