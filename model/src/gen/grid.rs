//! Every command, form and width in both modes; every flag outcome.

use super::float_values::{any_bits, bytes_of};
use super::layout::{layout, Kind, Layout, DATA_KINDS};
use super::pick::{forms_of, reason_of};
use super::{family_rng, integer_bytes, known_bytes, shuffle};
use crate::arith;
use crate::asm;
use crate::case::Case;
use crate::code::{decode, Command, Format, Op, Role};
use crate::floats::{self, Number};
use crate::rng::Rng;
use crate::state::*;

/// A desk whose pages are all good, some of them read-only or without commands, in either mode.
pub fn good_desk(rng: &mut Rng, kernel: bool) -> Layout {
    let mut kinds = vec![Kind::Writable; 2 + rng.below(3) as usize];
    if rng.chance(50) {
        kinds.push(rng.pick(&DATA_KINDS));
    }
    kinds.push(Kind::ReadOnly);
    let mut desk = layout(Rng::new(rng.next()), &kinds, true);
    if kernel {
        let mut state = desk.maker.state;
        state.status |= KERNEL;
        desk.maker.begin(state);
    }
    desk.registers();
    desk.aim();
    desk
}

/// Commands, each with the form of one operand, as straight code in batches.
pub fn grid() -> Vec<Case> {
    let mut rng = family_rng("grid");
    let mut cases = Vec::new();
    for kernel in [false, true] {
        let mut items = Vec::new();
        for byte in integer_bytes() {
            let known = decode(byte).unwrap();
            if matches!(known.op, Op::Halt | Op::Resume | Op::SystemCall) {
                continue;
            }
            if known.operands.is_empty() {
                items.extend([(byte, None); 4]);
            }
            for (place, (role, format)) in known.operands.iter().enumerate() {
                for form in forms_of(*role, *format) {
                    items.push((byte, Some((place, *form))));
                }
            }
        }
        shuffle(&mut rng, &mut items);
        while !items.is_empty() {
            let mut desk = good_desk(&mut rng, kernel);
            for _ in 0..9 {
                let Some((byte, forced)) = items.pop() else { break };
                if !desk.maker.free_here() {
                    items.push((byte, forced));
                    break;
                }
                let code = desk.pick_command(byte, forced);
                desk.maker.code(&code);
                desk.maker.step();
                if desk.maker.state.stopped() {
                    break;
                }
                if desk.maker.state.kernel() != kernel {
                    if !desk.maker.free_here() {
                        break;
                    }
                    let target = desk.code_target_of_user();
                    desk.go_on_at(target);
                }
            }
            cases.push(desk.maker.finish());
        }
    }
    cases
}

impl Layout {
    /// A place for code in user mode, chosen while in kernel mode.
    pub fn code_target_of_user(&mut self) -> u32 {
        let state = self.maker.state;
        self.maker.state.status &= !KERNEL;
        let target = self.code_target();
        self.maker.state = state;
        target
    }
}

/// The flags of a command for operand values, or `None` for DIV by zero.
fn flags_of(known: &Command, first: u64, second: u64) -> Option<u32> {
    let format = known.operands[0].1;
    if let Op::Float(op) = known.op {
        return Some(floats::apply(op, Number::of(format, first), Number::of(format, second)).1);
    }
    arith::apply(known.op, first as u32, second as u32, format.size()).map(|(_, flags)| flags)
}

/// Flag outcomes that a command can have, each with operand values.
pub fn outcomes(known: &Command, rng: &mut Rng) -> Vec<(u32, u64, u64)> {
    let format = known.operands[0].1;
    let mut found: Vec<(u32, u64, u64)> = Vec::new();
    for _ in 0..3000 {
        let mut first = any_bits(rng, format);
        if matches!(known.op, Op::Sh | Op::Rot) {
            first = u64::from(rng.below(80).wrapping_sub(40));
        }
        let second = any_bits(rng, format);
        if let Some(flags) = flags_of(known, first, second) {
            if !found.iter().any(|outcome| outcome.0 == flags) {
                found.push((flags, first, second));
            }
        }
    }
    found
}

/// Each flag outcome of each command, with other flags before.
pub fn flags() -> Vec<Case> {
    let mut rng = family_rng("flags");
    let mut items = Vec::new();
    for byte in known_bytes() {
        let known = decode(byte).unwrap();
        let sets = !matches!(
            known.op,
            Op::Halt | Op::Pushr | Op::Popr | Op::SystemCall | Op::Resume | Op::Jump(_) | Op::Call | Op::Ret
        );
        if sets {
            for (flags, first, second) in outcomes(&known, &mut rng) {
                items.push((byte, flags, first, second));
                items.push((byte, flags, first, second));
            }
        }
    }
    shuffle(&mut rng, &mut items);
    let mut cases = Vec::new();
    while !items.is_empty() {
        let kernel = rng.chance(50);
        let mut desk = good_desk(&mut rng, kernel);
        let mut rest = items.clone();
        for _ in 0..10 {
            let Some((byte, flags, first, second)) = rest.pop() else { break };
            if !desk.maker.free_here() {
                rest.push((byte, flags, first, second));
                break;
            }
            let known = decode(byte).unwrap();
            let mut operands = Vec::new();
            for (place, (role, format)) in known.operands.iter().enumerate() {
                let value = if place == 0 { first } else { second };
                operands.push(match role {
                    Role::Value if *format != Format::D && desk.maker.rng.chance(60) => asm::immediate(value as u32),
                    Role::Address => asm::absolute(value as u32),
                    Role::Destination if desk.maker.rng.chance(50) => asm::register(desk.maker.rng.below(14) as u8),
                    _ => {
                        let at = desk.free_address(format.size(), reason_of(*role));
                        desk.lay_at(at, &bytes_of(value, *format));
                        asm::absolute(at)
                    }
                });
            }
            let code = asm::command(byte, &operands);
            desk.maker.code(&code);
            // Operands that overlap give other flags.
            if desk.maker.step().event != Event::Plain || desk.maker.state.status & FLAGS != flags {
                rest.push((byte, flags, first, second));
                break;
            }
        }
        if let Some(case) = desk.maker.finish_true() {
            cases.push(case);
            items = rest;
        }
    }
    cases
}
