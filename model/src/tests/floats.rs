//! Commands on floating numbers (request F-6): results and flags.

use super::*;
use crate::asm::*;
use crate::code::{FloatOp, Format};
use crate::exact;
use crate::floats::{apply, Number};
use crate::gen::float_pairs::byte_of;
use crate::gen::float_values::{any_number, edges, infinity, nans};
use crate::rng::Rng;

const OPS: [FloatOp; 4] = [FloatOp::Add, FloatOp::Sub, FloatOp::Mult, FloatOp::Div];

/// Result and flags of a command with three operands, whatever the flags before: into registers, and
/// into memory.
fn tried(op: FloatOp, format: Format, first: u64, second: u64) -> (u64, u32) {
    let mut found = Vec::new();
    for flags in 0..16 {
        for to in [register(6), absolute(1100)] {
            let mut desk = kernel();
            desk.state.status |= flags;
            let bytes = |bits: u64| bits.to_be_bytes()[8 - format.size() as usize..].to_vec();
            desk.put(1024, &bytes(first));
            desk.put(1050, &bytes(second));
            let code = command(byte_of(op, format, true), &[absolute(1024), absolute(1050), to]);
            desk.code(&code).step();
            let word =
                |i: usize| if to == register(6) { desk.state.registers[6 + i] } else { desk.get(1100 + 4 * i as u32) };
            let result = match format {
                Format::D => u64::from(word(0)) << 32 | u64::from(word(1)),
                _ => u64::from(word(0)),
            };
            found.push((result, desk.flags()));
        }
    }
    assert!(found.iter().all(|answer| *answer == found[0]));
    found[0]
}

#[test]
fn short_results() {
    use FloatOp::*;
    // Operation, first, second, result, flags.
    let list = [
        (Add, 0x3F80_0000, 0x4000_0000, 0x4040_0000, 0),
        (Sub, 0x3F80_0000, 0x4040_0000, 0x4000_0000, 0),
        (Sub, 0x4040_0000, 0x3F80_0000, 0xC000_0000, N),
        (Mult, 0xC000_0000, 0x4040_0000, 0xC0C0_0000, N),
        (Div, 0x4000_0000, 0x3F80_0000, 0x3F00_0000, 0),
        (Div, 0x4040_0000, 0x3F80_0000, 0x3EAA_AAAB, 0),
        // Ties to even: half of a step above 1, and above the next.
        (Add, 0x3380_0000, 0x3F80_0000, 0x3F80_0000, 0),
        (Add, 0x3380_0000, 0x3F80_0001, 0x3F80_0002, 0),
        (Add, 0x3380_0001, 0x3F80_0000, 0x3F80_0001, 0),
        // Zeros.
        (Add, 0x8000_0000, 0x8000_0000, 0x8000_0000, Z),
        (Add, 0x0000_0000, 0x8000_0000, 0x0000_0000, Z),
        (Sub, 0x3F80_0000, 0x3F80_0000, 0x0000_0000, Z),
        (Sub, 0x0000_0000, 0x8000_0000, 0x8000_0000, Z),
        (Mult, 0x8000_0000, 0x3F80_0000, 0x8000_0000, Z),
        // Subnormal numbers.
        (Add, 0x0000_0001, 0x007F_FFFF, 0x0080_0000, 0),
        (Sub, 0x0000_0001, 0x0080_0000, 0x007F_FFFF, 0),
        (Mult, 0x3F00_0000, 0x0000_0001, 0x0000_0000, Z),
        (Mult, 0x3F00_0000, 0x8000_0003, 0x8000_0002, N),
        (Div, 0x4000_0000, 0x8000_0001, 0x8000_0000, Z),
        // Overflow, and what is below it.
        (Add, 0x7300_0000, 0x7F7F_FFFF, 0x7F80_0000, V),
        (Add, 0x72FF_FFFF, 0x7F7F_FFFF, 0x7F7F_FFFF, 0),
        (Mult, 0xFF7F_FFFF, 0x7F7F_FFFF, 0xFF80_0000, N | V),
        // Infinities and NaNs.
        (Div, 0x0000_0000, 0x3F80_0000, 0x7F80_0000, V),
        (Div, 0x8000_0000, 0x3F80_0000, 0xFF80_0000, N | V),
        (Div, 0x8000_0000, 0x0000_0000, 0x7FC0_0000, V),
        (Div, 0xFF80_0000, 0x3F80_0000, 0x8000_0000, Z),
        (Mult, 0x0000_0000, 0xFF80_0000, 0x7FC0_0000, V),
        (Sub, 0x7F80_0000, 0x7F80_0000, 0x7FC0_0000, V),
        (Add, 0xFF80_0000, 0x7F80_0000, 0x7FC0_0000, V),
        (Add, 0xFFC0_1234, 0x3F80_0000, 0x7FC0_0000, V),
        (Add, 0x3F80_0000, 0x7F80_0001, 0x7FC0_0000, V),
        (Mult, 0xFFFF_FFFF, 0xFFFF_FFFF, 0x7FC0_0000, V),
    ];
    for (op, first, second, result, flags) in list {
        assert_eq!(tried(op, Format::F, first, second), (result, flags), "{op:?} {first:08X}h {second:08X}h");
    }
}

#[test]
fn long_results() {
    use FloatOp::*;
    let list = [
        (Add, 0x3FF0_0000_0000_0000, 0x4000_0000_0000_0000, 0x4008_0000_0000_0000, 0),
        (Sub, 0x4008_0000_0000_0000, 0x3FF0_0000_0000_0000, 0xC000_0000_0000_0000, N),
        (Mult, 0xC000_0000_0000_0000, 0x4008_0000_0000_0000, 0xC018_0000_0000_0000, N),
        (Div, 0x4008_0000_0000_0000, 0x3FF0_0000_0000_0000, 0x3FD5_5555_5555_5555, 0),
        (Add, 0x3CA0_0000_0000_0000, 0x3FF0_0000_0000_0000, 0x3FF0_0000_0000_0000, 0),
        (Add, 0x3CA0_0000_0000_0000, 0x3FF0_0000_0000_0001, 0x3FF0_0000_0000_0002, 0),
        (Add, 1, 0x000F_FFFF_FFFF_FFFF, 0x0010_0000_0000_0000, 0),
        (Mult, 0x3FE0_0000_0000_0000, 0x8000_0000_0000_0001, 0x8000_0000_0000_0000, Z),
        (Add, 0x7FEF_FFFF_FFFF_FFFF, 0x7FEF_FFFF_FFFF_FFFF, 0x7FF0_0000_0000_0000, V),
        (Div, 0x8000_0000_0000_0000, 0x3FF0_0000_0000_0000, 0xFFF0_0000_0000_0000, N | V),
        (Div, 0, 0, 0x7FF8_0000_0000_0000, V),
        (Add, 0xFFF8_0000_0000_0001, 0, 0x7FF8_0000_0000_0000, V),
        // A NaN whose payload is in the low word alone.
        (Sub, 0, 0x7FF0_0000_0000_0001, 0x7FF8_0000_0000_0000, V),
    ];
    for (op, first, second, result, flags) in list {
        assert_eq!(tried(op, Format::D, first, second), (result, flags), "{op:?} {first:016X}h {second:016X}h");
    }
}

#[test]
fn cmp() {
    // First, second, flags; for both kinds by their meaning.
    let one = [0x3F80_0000, 0x3FF0_0000_0000_0000];
    let minus = [0x8000_0000, 0x8000_0000_0000_0000];
    let most = [0x7F80_0000, 0x7FF0_0000_0000_0000];
    for (i, format) in [Format::F, Format::D].into_iter().enumerate() {
        let (one, minus, most) = (one[i], minus[i], most[i]);
        let list = [
            (one, one + 1, N),
            (one + 1, one, 0),
            (one, one, Z),
            (0, minus, Z),
            (minus, 0, Z),
            (minus | one, one, N),
            (minus | (one + 1), minus | one, N),
            (minus | 1, 0, N),
            (most, most, Z),
            (minus | most, most, N),
            (most, one, 0),
            (most - 1, most, N),
            (most | 1, one, V),
            (one, minus | most | 1, V),
            (minus | most | 1, minus | most | 1, V),
        ];
        for (first, second, flags) in list {
            assert_eq!(tried_cmp(format, first, second), flags, "{first:X}h {second:X}h");
        }
    }
}

fn tried_cmp(format: Format, first: u64, second: u64) -> u32 {
    let mut found = Vec::new();
    for flags in 0..16 {
        let mut desk = kernel();
        desk.state.status |= flags;
        let bytes = |bits: u64| bits.to_be_bytes()[8 - format.size() as usize..].to_vec();
        desk.put(1024, &bytes(first));
        desk.put(1050, &bytes(second));
        desk.code(&command(byte_of(FloatOp::Cmp, format, false), &[absolute(1024), absolute(1050)]));
        let memory = desk.memory.clone();
        desk.step();
        assert_eq!(desk.memory, memory);
        found.push(desk.flags());
    }
    assert!(found.iter().all(|flags| *flags == found[0]));
    found[0]
}

/// MOVE keeps the bits, and its flags are those of the number.
#[test]
fn moves() {
    for format in [Format::F, Format::D] {
        for bits in edges(format) {
            for (from, to) in [(0, 0), (0, 1), (1, 0), (1, 1)] {
                let mut desk = kernel();
                desk.state.status |= FLAGS;
                let bytes = bits.to_be_bytes()[8 - format.size() as usize..].to_vec();
                desk.put(1024, &bytes);
                for (i, word) in bytes.chunks(4).enumerate() {
                    desk.state.registers[4 + i] = u32::from_be_bytes([word[0], word[1], word[2], word[3]]);
                }
                let source = [absolute(1024), register(4)][from];
                let target = [absolute(1101), register(12)][to];
                desk.code(&command(byte_of(FloatOp::Move, format, false), &[source, target])).step();
                let words = (0..format.size() / 4).map(|i| {
                    if to == 1 {
                        desk.state.registers[12 + i as usize]
                    } else {
                        desk.get(1101 + 4 * i)
                    }
                });
                assert!(words.flat_map(u32::to_be_bytes).eq(bytes));
                let minus = bits >> (8 * format.size() - 1) == 1;
                let size = bits & !(1 << (8 * format.size() - 1));
                let n = minus && size != 0 && size <= infinity(format);
                let wanted = if n { N } else { 0 }
                    | if size == 0 { Z } else { 0 }
                    | if size >= infinity(format) { V } else { 0 };
                assert_eq!(desk.flags(), wanted, "{bits:X}h");
            }
        }
    }
}

/// The operations are those that are worked out on whole numbers.
#[test]
fn against_whole_numbers() {
    let mut rng = Rng::new(6);
    for format in [Format::F, Format::D] {
        let edges = edges(format);
        let mut pairs: Vec<(u64, u64)> = edges.iter().flat_map(|a| edges.iter().map(move |b| (*a, *b))).collect();
        for _ in 0..200_000 {
            pairs.push((any_number(&mut rng, format), any_number(&mut rng, format)));
        }
        for (first, second) in pairs {
            let (first, second) = (Number::of(format, first), Number::of(format, second));
            for op in OPS {
                let (result, _) = apply(op, first, second);
                assert_eq!(result, exact::operate(op, first, second).0, "{op:?} {first:X?} {second:X?}");
            }
        }
    }
}

/// A NaN is always the same result, whichever NaN comes in, and in whichever place.
#[test]
fn nan_results() {
    for (format, nan) in [(Format::F, 0x7FC0_0000), (Format::D, 0x7FF8_0000_0000_0000)] {
        for bits in nans(format) {
            for other in edges(format) {
                for (first, second) in [(bits, other), (other, bits)] {
                    for op in OPS {
                        let answer = apply(op, Number::of(format, first), Number::of(format, second));
                        assert_eq!(answer, (Number::of(format, nan), V));
                    }
                }
            }
        }
    }
}
