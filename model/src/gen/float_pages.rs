//! Floating numbers across the ends of pages (request F-6), where the next page is good and where it
//! is not.

use super::fetches::{go_on, keep, tried};
use super::float_pairs::paged;
use super::float_places::fill;
use super::float_values::{any_number, bytes_of};
use super::layout::{layout, Kind, Layout};
use super::traps::trap_desk;
use super::{family_rng, float_bytes, until};
use crate::asm::*;
use crate::case::Case;
use crate::code::{decode, Role};
use crate::operand::Fields;
use crate::rng::Rng;
use crate::state::*;

/// An operand in any form with an address; R13 is free for the forms that step it.
fn any_form(desk: &mut Layout, size: u32, target: u32, later: u32) -> Fields {
    let mut seen = desk.maker.state.registers;
    seen[PC] = seen[PC].wrapping_add(later);
    let form = desk.maker.rng.pick(&[0, 3, 4, 5, 6]);
    let (x, y) = (desk.maker.rng.below(12) as u8, desk.maker.rng.below(12) as u8);
    let index = seen[y as usize].wrapping_mul(size);
    desk.addressed(&seen, target, form, (x, y), index)
}

/// Numbers with so many of their bytes before the end of a page and the others in the next one: for
/// every command, operand and number of bytes, where the next page is good, and where it is not.
fn across(rng: &mut Rng, cases: &mut Vec<Case>) {
    for byte in float_bytes() {
        let operands = decode(byte).unwrap().operands;
        for (place, (role, _)) in operands.iter().enumerate() {
            let written = matches!(role, Role::Destination | Role::Both);
            cases.push(until(|| across_good(rng, byte, place)));
            for number in [8, 9, 10, 11].into_iter().filter(|number| *number != 11 || written) {
                cases.push(until(|| across_bad(rng, byte, place, number)));
            }
        }
    }
}

/// A command with one operand at `target`, the others in registers; `None` where other code lies.
fn with_operand_at(desk: &mut Layout, byte: u8, place: usize, target: u32) -> Option<Vec<u8>> {
    let operands = decode(byte).unwrap().operands;
    let size = operands[0].1.size();
    let mut fields = Vec::new();
    for i in 0..operands.len() {
        fields.push(if i == place {
            any_form(desk, size, target, 7 + 6 * i as u32)
        } else {
            register(2 * i as u8 + desk.maker.rng.below(2) as u8)
        });
    }
    let code = command(byte, &fields);
    desk.plain(desk.maker.state.registers[PC], code.len() as u32).then_some(code)
}

/// Each number of bytes at the end of a page of its own.
fn across_good(rng: &mut Rng, byte: u8, place: usize) -> Option<Case> {
    let format = decode(byte).unwrap().operands[0].1;
    let (mut desk, _) = paged(rng, false, 9);
    fill(&mut desk, format);
    for before in 1..format.size() {
        let target = (before + 1) * FRAME_BYTES - before;
        let bits = any_number(&mut desk.maker.rng, format);
        desk.lay_at(target, &bytes_of(bits, format));
        let code = with_operand_at(&mut desk, byte, place, target)?;
        desk.maker.code(&code);
        if desk.maker.step().event != Event::Plain {
            return None;
        }
    }
    desk.maker.finish_true()
}

/// The next page fails with a number: its first byte is the alarm's argument.
fn across_bad(rng: &mut Rng, byte: u8, place: usize, number: u32) -> Option<Case> {
    let format = decode(byte).unwrap().operands[0].1;
    let mut desk = trap_desk(rng);
    let page = if number == 8 { desk.kinds.len() as u32 } else { desk.failing_page(number) };
    let code_page = desk.pages(&[Kind::Writable]).into_iter().find(|good| *good + 1 != page)?;
    let mut state = desk.maker.state;
    state.registers[PC] = code_page * FRAME_BYTES + 8;
    desk.maker.begin(state);
    for before in 1..format.size() {
        let own = desk.maker.state.registers[PC];
        let code = with_operand_at(&mut desk, byte, place, page * FRAME_BYTES - before)?;
        desk.maker.code(&code);
        let outcome = desk.maker.step();
        let argument = (page * FRAME_BYTES).to_be_bytes();
        if !matches!(outcome.event, Event::Entry { cause, saved } if cause == number && saved[68..] == argument) {
            return None;
        }
        go_on(&mut desk, own + code.len() as u32);
    }
    desk.maker.finish_true()
}

/// Numbers across the end of a page that isn't writable, and the next one fails otherwise: where the
/// number is read before it is written the next page's alarm comes, where it is only written 11.
fn unwritable_first(rng: &mut Rng, cases: &mut Vec<Case>) {
    let kinds = [
        Kind::Writable,
        Kind::ReadOnly,
        Kind::Absent,
        Kind::ReadOnlyData,
        Kind::Forbidden,
        Kind::ReadOnly,
        Kind::Past,
        Kind::ReadOnly,
    ];
    for byte in float_bytes() {
        let operands = decode(byte).unwrap().operands;
        if operands[operands.len() - 1].0 == Role::Value {
            continue;
        }
        let mut desk = layout(Rng::new(rng.next()), &kinds, false);
        for page in [2, 4, 6, 8] {
            let before = 1 + desk.maker.rng.below(operands[0].1.size() - 1);
            let mut fields = vec![register(4); operands.len()];
            fields[operands.len() - 1] = absolute(page * FRAME_BYTES - before);
            tried(&mut desk, &command(byte, &fields));
        }
        keep(cases, desk);
    }
}

pub fn pages() -> Vec<Case> {
    let mut rng = family_rng("float pages");
    let mut cases = Vec::new();
    across(&mut rng, &mut cases);
    unwritable_first(&mut rng, &mut cases);
    cases
}
