//! Floating numbers (request F-6): all pairs of the edges through each operation, and random pairs.
//! A case has a row of equal commands for each first number, a step for each pair, so that result
//! and flags of each are seen.

use super::family_rng;
use super::float_values::{any_number, bytes_of, edges};
use super::layout::{layout, Kind, Layout};
use crate::asm::*;
use crate::case::{Call, Case};
use crate::code::{FloatOp, Format};
use crate::operand::Fields;
use crate::rng::Rng;
use crate::state::*;

const OPS: [FloatOp; 5] = [FloatOp::Add, FloatOp::Sub, FloatOp::Mult, FloatOp::Div, FloatOp::Cmp];

/// Where the operands of a row are.
#[derive(Clone, Copy, PartialEq, Eq)]
enum Shape {
    /// Both in memory, the result in R4.
    Read,
    /// The first in R8, the results in memory.
    Kept,
    /// Both in memory, the result in place of the second.
    Placed,
    /// Both in registers, the result in R12 in place of the second.
    Registers,
    /// The first in R10, the second ones in memory from the last to the first, the result in R6.
    Down,
}

const SHAPES: [Shape; 5] = [Shape::Read, Shape::Kept, Shape::Placed, Shape::Registers, Shape::Down];

/// The byte of an operation, with three operands where there are so many.
pub fn byte_of(op: FloatOp, format: Format, three: bool) -> u8 {
    let pair = if three { 4 } else { 0 };
    let first = match op {
        FloatOp::Add => 0x80 + pair,
        FloatOp::Sub => 0x88 + pair,
        FloatOp::Mult => 0x90 + pair,
        FloatOp::Div => 0x98 + pair,
        FloatOp::Move => 0xA0,
        FloatOp::Cmp => 0xA4,
    };
    first + u8::from(format == Format::D)
}

/// A command of an operation: CMP has no destination.
fn operation(op: FloatOp, format: Format, operands: [Fields; 3]) -> Vec<u8> {
    let count = if op == FloatOp::Cmp { 2 } else { 3 };
    command(byte_of(op, format, true), &operands[..count])
}

/// The code of one pair.
fn pair_code(op: FloatOp, format: Format, shape: Shape) -> Vec<Vec<u8>> {
    let moved = |from| command(byte_of(FloatOp::Move, format, false), &[from, register(12)]);
    match shape {
        Shape::Read => vec![operation(op, format, [relative(0, 1), raised(2), register(4)])],
        Shape::Kept => vec![operation(op, format, [register(8), raised(2), raised(3)])],
        Shape::Placed => vec![command(byte_of(op, format, false), &[relative(0, 1), raised(2)])],
        Shape::Registers => {
            vec![moved(raised(2)), command(byte_of(op, format, false), &[register(8), register(12)])]
        }
        Shape::Down => vec![operation(op, format, [register(10), lowered(2), register(6)])],
    }
}

/// Lays numbers from an address on; gives their length in bytes.
fn lay_numbers(desk: &mut Layout, at: u32, numbers: &[u64], format: Format) -> u32 {
    for (i, bits) in numbers.iter().enumerate() {
        desk.lay_at(at + i as u32 * format.size(), &bytes_of(*bits, format));
    }
    numbers.len() as u32 * format.size()
}

/// A desk of good pages in one of the modes; gives the address where they begin.
pub fn paged(rng: &mut Rng, kernel: bool, pages: usize) -> (Layout, u32) {
    let mut desk = layout(Rng::new(rng.next()), &vec![Kind::Writable; pages], false);
    let mut state = desk.maker.state;
    let base = if kernel { desk.first_frame * FRAME_BYTES } else { 0 };
    if kernel {
        state.status |= KERNEL;
    }
    state.registers[PC] = base;
    desk.maker.begin(state);
    (desk, base)
}

/// Rows of all these seconds, one for each of the firsts. R1 goes through the numbers of the rows, R2
/// through those of a row, R3 through results.
fn rows(rng: &mut Rng, op: FloatOp, format: Format, shape: Shape, firsts: &[u64], seconds: &[u64]) -> Case {
    let kernel = matches!(shape, Shape::Read | Shape::Registers);
    let (mut desk, base) = paged(rng, kernel, 24);
    let size = format.size();
    let pair = pair_code(op, format, shape);
    // Before each row its first number is put into a register.
    let first = if shape == Shape::Down { register(10) } else { register(8) };
    let mut code = command(byte_of(FloatOp::Move, format, false), &[relative(0, 1), first]);
    for _ in seconds {
        code.extend(pair.concat());
    }
    // The numbers begin at an odd address, so that long ones lie across the ends of pages.
    let outer = base + (code.len() as u32 + 40).next_multiple_of(FRAME_BYTES) + 3;
    let inner = outer + lay_numbers(&mut desk, outer, firsts, format) + 5;
    let bytes = lay_numbers(&mut desk, inner, seconds, format);
    let mut results = inner + bytes + 6;
    let start = match shape {
        // Each row has numbers of its own.
        Shape::Placed => {
            for _ in firsts {
                lay_numbers(&mut desk, results, seconds, format);
                results += bytes;
            }
            inner + bytes + 6
        }
        Shape::Down => inner + bytes,
        _ => inner,
    };
    let mut state = desk.maker.state;
    (state.registers[1], state.registers[2], state.registers[3]) = (outer, start, results);
    desk.maker.begin(state);
    // After each row: the next of the firsts, R2 at the others again, back to the first command.
    let mut after = vec![command(0x42, &[immediate(size), register(1)])];
    if shape != Shape::Placed {
        after.push(command(0x12, &[immediate(start), register(2)]));
    }
    after.push(command(0x70, &[absolute(base)]));
    code.extend(after.concat());
    desk.maker.code(&code);
    for _ in firsts {
        for _ in 0..1 + seconds.len() * pair.len() {
            assert_eq!(desk.maker.call(Call::Step).event, Event::Plain);
        }
        desk.maker.call(Call::Run(after.len() as u32));
    }
    desk.maker.finish_true().expect("rows that play as they were made")
}

/// All pairs of the edges, for each kind and operation; a fifth of the firsts for each shape.
pub fn pairs() -> Vec<Case> {
    let mut rng = family_rng("float pairs");
    let mut cases = Vec::new();
    for format in [Format::F, Format::D] {
        let edges = edges(format);
        for (i, op) in OPS.into_iter().enumerate() {
            for (j, firsts) in edges.chunks(edges.len().div_ceil(SHAPES.len())).enumerate() {
                let mut shape = SHAPES[(i + j) % SHAPES.len()];
                if op == FloatOp::Cmp && shape == Shape::Placed {
                    shape = Shape::Read;
                }
                cases.push(rows(&mut rng, op, format, shape, firsts, &edges));
            }
        }
    }
    cases
}

/// Random pairs: rows of random numbers for each kind and operation.
pub fn random() -> Vec<Case> {
    let mut rng = family_rng("float random");
    let mut cases = Vec::new();
    for format in [Format::F, Format::D] {
        for (i, op) in OPS.into_iter().enumerate() {
            let shape = if op == FloatOp::Cmp { Shape::Kept } else { SHAPES[i] };
            let mut numbers = |count: u32| -> Vec<u64> { (0..count).map(|_| any_number(&mut rng, format)).collect() };
            let (firsts, seconds) = (numbers(8), numbers(40));
            cases.push(rows(&mut rng, op, format, shape, &firsts, &seconds));
        }
    }
    cases
}

/// MOVE of each of the edges: from memory to memory, to a register and on to another; a short one
/// from the command itself too.
pub fn moves() -> Vec<Case> {
    let mut rng = family_rng("float moves");
    let mut cases = Vec::new();
    for format in [Format::F, Format::D] {
        for kernel in [false, true] {
            let edges = edges(format);
            let byte = byte_of(FloatOp::Move, format, false);
            let (mut desk, base) = paged(&mut rng, kernel, 12);
            let numbers = base + 9 * FRAME_BYTES + 1;
            let bytes = lay_numbers(&mut desk, numbers, &edges, format);
            let mut state = desk.maker.state;
            (state.registers[2], state.registers[3]) = (numbers, numbers + bytes + 2);
            state.status |= C;
            desk.maker.begin(state);
            for (i, bits) in edges.iter().enumerate() {
                let at = absolute(numbers + i as u32 * format.size());
                let held = register(4 + i as u8 % 8);
                let mut operands = vec![[raised(2), raised(3)], [at, held], [held, register(12)]];
                if format == Format::F {
                    operands.push([immediate(*bits as u32), register(13)]);
                }
                for pair in operands {
                    desk.maker.code(&command(byte, &pair));
                    desk.maker.step();
                }
            }
            cases.push(desk.maker.finish_true().expect("moves that play as they were made"));
        }
    }
    cases
}
