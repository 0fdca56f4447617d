//! Where floating numbers lie (request F-6): every register for every operand, registers that are
//! stepped too, and places that overlap.

use super::fetches::{keep, tried};
use super::float_pairs::paged;
use super::float_values::{any_number, bytes_of};
use super::layout::Layout;
use super::{family_rng, float_bytes};
use crate::asm::*;
use crate::case::Case;
use crate::code::{decode, Format};
use crate::map::DATA;
use crate::operand::Fields;
use crate::rng::Rng;
use crate::state::*;

/// Fills R0 to R14 with floating numbers.
pub fn fill(desk: &mut Layout, format: Format) {
    let mut state = desk.maker.state;
    let step = format.size() as usize / 4;
    for x in (0..15).step_by(step) {
        let bytes = bytes_of(any_number(&mut desk.maker.rng, format), format);
        for (i, word) in bytes.chunks(4).enumerate().take(15 - x) {
            state.registers[x + i] = u32::from_be_bytes([word[0], word[1], word[2], word[3]]);
        }
    }
    desk.maker.begin(state);
}

/// Every register for every operand of every command, and form 1: a result or alarm 14. The other
/// operands are in memory.
fn every_register(rng: &mut Rng, cases: &mut Vec<Case>) {
    for byte in float_bytes() {
        let known = decode(byte).unwrap();
        let format = known.operands[0].1;
        for place in 0..known.operands.len() {
            for kernel in [false, true] {
                let (mut desk, base) = paged(rng, kernel, 4);
                fill(&mut desk, format);
                let at = base + 3 * FRAME_BYTES;
                for i in 0..3 {
                    let bits = any_number(&mut desk.maker.rng, format);
                    desk.lay_at(at + 16 * i, &bytes_of(bits, format));
                }
                // Behind the registers form 1, which is 14 for D and for what is written.
                let number = immediate(any_number(&mut desk.maker.rng, Format::F) as u32);
                for own in (0..16).map(register).chain([number]) {
                    let operands: Vec<Fields> = (0..known.operands.len())
                        .map(|i| if i == place { own } else { absolute(at + 16 * i as u32) })
                        .collect();
                    let code = command(byte, &operands);
                    if !kernel {
                        tried(&mut desk, &code);
                        continue;
                    }
                    // A stop ends the case; R14 is the first that a long number can't be in.
                    desk.maker.code(&code);
                    desk.maker.step();
                    if desk.maker.state.stopped() {
                        break;
                    }
                }
                keep(cases, desk);
            }
        }
    }
}

/// Registers that one operand steps and another one is, or is made of.
fn stepped_registers(rng: &mut Rng, cases: &mut Vec<Case>) {
    for (format, j) in [(Format::F, 0), (Format::D, 1)] {
        let list: Vec<Vec<u8>> = vec![
            // The register that was stepped is the destination, or its second word is.
            command(0xA0 + j, &[raised(12), register(12)]),
            command(0xA0 + j, &[lowered(13), register(12)]),
            command(0xA0 + j, &[raised(14), register(13)]),
            // Stepped, then read; read, then stepped.
            command(0x80 + j, &[raised(5), register(4)]),
            command(0x8C + j, &[lowered(5), register(5), register(8)]),
            command(0xA0 + j, &[register(12), lowered(13)]),
            command(0xA4 + j, &[register(6), raised(6)]),
            command(0x94 + j, &[raised(7), raised(7), raised(7)]),
            command(0x9C + j, &[lowered(7), raised(7), register(6)]),
            // Two registers in common: R12 and R13 with R13 and R14.
            command(0x80 + j, &[register(12), register(13)]),
            command(0x88 + j, &[register(13), register(12)]),
            command(0x84 + j, &[register(12), register(13), register(12)]),
            command(0xA0 + j, &[register(12), register(13)]),
            command(0xA0 + j, &[register(13), register(12)]),
            command(0x80 + j, &[register(3), register(3)]),
            command(0x88 + j, &[register(3), register(3)]),
        ];
        for kernel in [false, true] {
            for some in list.chunks(8) {
                let (mut desk, base) = paged(rng, kernel, 4);
                fill(&mut desk, format);
                let mut state = desk.maker.state;
                for x in [5, 6, 7, 12, 13, 14] {
                    state.registers[x] = base + 2 * FRAME_BYTES + 40 * x as u32 + 100;
                }
                desk.maker.begin(state);
                for i in 0..100 {
                    let bits = any_number(&mut desk.maker.rng, format);
                    desk.lay_at(base + 2 * FRAME_BYTES + format.size() * i, &bytes_of(bits, format));
                }
                for code in some {
                    desk.maker.code(code);
                    desk.maker.step();
                    // The addresses again, as results may have replaced them.
                    for x in [5, 6, 7, 12, 13, 14] {
                        let again = command(0x12, &[immediate(state.registers[x]), register(x as u8)]);
                        desk.maker.code(&again);
                        desk.maker.step();
                    }
                }
                keep(cases, desk);
            }
        }
    }
}

/// Operands that overlap each other in memory, and a result that covers the command's own bytes.
fn overlaps(rng: &mut Rng, cases: &mut Vec<Case>) {
    for (format, j) in [(Format::F, 0), (Format::D, 1)] {
        for kernel in [false, true] {
            let (mut desk, base) = paged(rng, kernel, 4);
            let at = base + 3 * FRAME_BYTES;
            for i in 0..12 {
                let bits = any_number(&mut desk.maker.rng, format);
                desk.lay_at(at + format.size() * i, &bytes_of(bits, format));
            }
            let size = format.size();
            for by in 1..size {
                let (a, b) = (absolute(at + 8), absolute(at + 8 + by));
                for code in [command(0xA0 + j, &[a, b]), command(0x80 + j, &[b, a]), command(0x94 + j, &[a, b, b])] {
                    desk.maker.code(&code);
                    desk.maker.step();
                }
            }
            keep(cases, desk);
            // The result covers the first bytes of the command after it, or its own.
            let (mut desk, base) = paged(rng, kernel, 4);
            fill(&mut desk, format);
            let code = command(0xA0 + j, &[register(4), absolute(base + 5)]);
            desk.maker.code(&[code, command(0x80 + j, &[register(4), register(6)])].concat());
            desk.maker.step();
            desk.maker.step();
            keep(cases, desk);
        }
    }
}

/// A long number that covers the map entries of its own pages, or those of others: all its bytes are
/// looked up by the old entries.
fn own_map(rng: &mut Rng, cases: &mut Vec<Case>) {
    for round in 0..12u32 {
        let (mut desk, _) = paged(rng, false, 6);
        let base = desk.maker.state.map_base;
        // Pages 3 and 4 name the frames of the map, so that its entries can be written.
        let frame = base / FRAME_BYTES;
        desk.maker.lay_word(base + 12, 0xC000_0000 | frame);
        desk.maker.lay_word(base + 16, 0xC000_0000 | (frame + 1));
        let entry = round % 6;
        let at = 3 * FRAME_BYTES + (base + 4 * entry) % FRAME_BYTES - round % 3;
        let mut state = desk.maker.state;
        let good = 0xC000_0000 | desk.first_frame;
        (state.registers[4], state.registers[5]) = match round % 4 {
            0 => (0, 0),
            1 => (good, good | DATA),
            2 => (0x8000_0000 | desk.first_frame, 0),
            _ => (good + 1, good),
        };
        desk.maker.begin(state);
        for code in [
            command(0xA1, &[register(4), absolute(at)]),
            command(0xA1, &[absolute(2 * FRAME_BYTES + 100), absolute(FRAME_BYTES + 100)]),
        ] {
            desk.maker.code(&code);
            desk.maker.step();
        }
        keep(cases, desk);
    }
}

pub fn places() -> Vec<Case> {
    let mut rng = family_rng("float places");
    let mut cases = Vec::new();
    every_register(&mut rng, &mut cases);
    stepped_registers(&mut rng, &mut cases);
    overlaps(&mut rng, &mut cases);
    own_map(&mut rng, &mut cases);
    cases
}
