//! Floating numbers at the edges of their kinds, and any others.

use super::layout::value;
use crate::code::Format;
use crate::exact::widths;
use crate::rng::Rng;

/// The bit of the sign.
pub fn sign(format: Format) -> u64 {
    let (m, n) = widths(format);
    1 << (m + n)
}

/// All bits of a number.
pub fn all_bits(format: Format) -> u64 {
    sign(format) | (sign(format) - 1)
}

/// The bits of infinity.
pub fn infinity(format: Format) -> u64 {
    let (m, n) = widths(format);
    ((1 << m) - 1) << n
}

/// The bits of 2 to a power that a normalised number of the kind can be.
pub fn power(format: Format, exponent: i64) -> u64 {
    let (m, n) = widths(format);
    let bias = (1i64 << (m - 1)) - 1;
    assert!(-bias < exponent && exponent <= bias);
    ((bias + exponent) as u64) << n
}

/// NaNs of both signs, quiet and signalling. A long one may have all of its payload in the low word.
pub fn nans(format: Format) -> Vec<u64> {
    let quiet = infinity(format) | 1 << (widths(format).1 - 1);
    let signalling = infinity(format) | 1;
    let minus = sign(format);
    let most = quiet - 1;
    let few = infinity(format) | 1 << (widths(format).1 - 2);
    vec![quiet, minus | quiet, quiet | 0x1234, all_bits(format), signalling, minus | signalling, most, minus | few]
}

/// Numbers of which both signs are among the edges.
fn signed(format: Format) -> Vec<u64> {
    let n = widths(format).1;
    let bias = (1i64 << (widths(format).0 - 1)) - 1;
    let one = power(format, 0);
    vec![
        // Zero; the smallest and the largest subnormal number; the smallest normalised one.
        0,
        1,
        (1 << n) - 1,
        1 << n,
        // 1, the next above it, half of the step between them.
        one,
        one + 1,
        power(format, -i64::from(n) - 1),
        // 1.5, and a power of 2 from which on the step is 2.
        one | 1 << (n - 1),
        power(format, i64::from(n) + 1),
        // Half of the step below the greatest number; that; infinity.
        power(format, bias - i64::from(n) - 1),
        infinity(format) - 1,
        infinity(format),
    ]
}

/// Numbers of which one sign is among the edges, by turns.
fn unsigned(format: Format) -> Vec<u64> {
    let n = widths(format).1;
    let bias = (1i64 << (widths(format).0 - 1)) - 1;
    let one = power(format, 0);
    // About the root of the smallest subnormal number, 2 to the power of 1 - bias - n.
    let root = power(format, (1 - bias - i64::from(n)) / 2 - 1);
    let overflow = power(format, (bias + 1) / 2);
    let (third, tenth) = match format {
        Format::D => ((1f64 / 3.0).to_bits(), 0.1f64.to_bits()),
        _ => (u64::from((1f32 / 3.0).to_bits()), u64::from(0.1f32.to_bits())),
    };
    vec![
        // Three times the smallest; in the middle of the subnormal ones; the next above them.
        3,
        1 << (n - 1),
        (1 << n) + 1,
        // Below 1; around half of the step above it; that step.
        one - 1,
        power(format, -i64::from(n) - 1) + 1,
        power(format, -i64::from(n)),
        power(format, -1),
        power(format, 1),
        power(format, 1) | 1 << (n - 1),
        third,
        tenth,
        // 2 more than the power of 2 from which on the step is 2, and 1 less.
        power(format, i64::from(n) + 1) + 1,
        power(format, i64::from(n) + 1) - 1,
        // Products of these lie around the smallest number and around the greatest.
        root,
        root | 1 << (n - 1),
        root + (1 << n),
        overflow,
        overflow - 1,
        // Below half of the step of the greatest number; the greatest but one; half of what overflows.
        power(format, bias - i64::from(n) - 1) - 1,
        infinity(format) - 2,
        power(format, bias),
    ]
}

/// The numbers of which all pairs are tried.
pub fn edges(format: Format) -> Vec<u64> {
    let mut list: Vec<u64> = signed(format).into_iter().flat_map(|bits| [bits, bits | sign(format)]).collect();
    list.extend(unsigned(format).iter().enumerate().map(|(i, bits)| bits | if i % 2 == 0 { 0 } else { sign(format) }));
    list.extend(nans(format));
    list
}

/// A floating number: an edge, one beside it, one with a few bits of its fraction, or any bits.
pub fn any_number(rng: &mut Rng, format: Format) -> u64 {
    let (m, n) = widths(format);
    let edges = edges(format);
    let edge = rng.pick(&edges);
    match rng.below(10) {
        0..=5 => edge,
        6 => edge.wrapping_add(u64::from(rng.below(5))).wrapping_sub(2) & all_bits(format),
        7 => {
            // Around 1, so that the numbers of a program meet.
            let bias = (1u64 << (m - 1)) - 1;
            let exponent = bias + u64::from(rng.below(8)) - 4;
            let fraction = rng.next() & ((1 << n) - 1);
            (rng.next() & sign(format)) | exponent << n | fraction & !(fraction >> rng.below(n))
        }
        _ => rng.next() & all_bits(format),
    }
}

/// The bits of a value of any format, often at the ends of its range.
pub fn any_bits(rng: &mut Rng, format: Format) -> u64 {
    if format.floating() {
        any_number(rng, format)
    } else {
        u64::from(value(rng, format.size()))
    }
}

/// A value's bytes, highest first.
pub fn bytes_of(bits: u64, format: Format) -> Vec<u8> {
    bits.to_be_bytes()[8 - format.size() as usize..].to_vec()
}
