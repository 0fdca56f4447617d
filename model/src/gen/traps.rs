//! Desks with pages of every kind, and operands that fail at a chosen part.

use super::layout::{layout, value, Kind, Layout, DATA_KINDS};
use super::pick::{forms_of, reason_of, Seen};
use crate::asm;
use crate::code::{Format, Op, Role};
use crate::map::Reason;
use crate::operand::Fields;
use crate::rng::Rng;
use crate::state::*;

/// Good pages with one bad page of each kind between them.
pub fn trap_desk(rng: &mut Rng) -> Layout {
    let mut bad = [Kind::Absent, Kind::Forbidden, Kind::ReadOnly, Kind::Past, Kind::WritableData, Kind::ReadOnlyData];
    super::shuffle(rng, &mut bad);
    let mut kinds = vec![Kind::Writable];
    for kind in bad {
        kinds.extend([Kind::Writable, kind]);
    }
    kinds.push(Kind::Writable);
    let mut desk = layout(Rng::new(rng.next()), &kinds, true);
    let mut state = desk.maker.state;
    for i in 0..14 {
        if desk.maker.rng.chance(40) {
            state.registers[i] = match i {
                0..=3 => desk.maker.rng.below(9),
                4..=9 => desk.address(false, 4, Reason::Write),
                _ => value(&mut desk.maker.rng, 4),
            };
        }
    }
    desk.maker.begin(state);
    desk.aim();
    desk
}

impl Layout {
    /// A page that fails with a number, and whose page before is writable.
    pub fn failing_page(&mut self, number: u32) -> u32 {
        let named = self.kinds.len() as u32;
        let kinds: &[Kind] = match number {
            9 => &[Kind::Absent],
            10 => &[Kind::Forbidden, Kind::Past],
            11 => &[Kind::ReadOnly, Kind::ReadOnlyData],
            21 => &DATA_KINDS,
            _ => {
                return match self.maker.rng.below(6) {
                    0 => self.maker.rng.word() / FRAME_BYTES | 0x40_0000,
                    1 => named + 1,
                    _ => named,
                }
            }
        };
        let pages = self.pages(kinds);
        self.maker.rng.pick(&pages)
    }

    /// An address whose first failing byte among `size` gives `number`, 21 where it is fetched.
    /// In kernel mode only 8 is possible.
    pub fn failing(&mut self, size: u32, number: u32) -> u32 {
        let back = if size > 1 && self.maker.rng.chance(50) { 1 + self.maker.rng.below(size - 1) } else { 0 };
        if self.maker.state.kernel() {
            if self.maker.rng.chance(20) {
                return self.maker.rng.word() | 0x8000_0000;
            }
            return self.maker.length() - back;
        }
        let page = self.failing_page(number);
        if back > 0 {
            return (page * FRAME_BYTES).wrapping_sub(back);
        }
        page * FRAME_BYTES + self.maker.rng.below(FRAME_BYTES - size + 1)
    }

    /// An operand whose value or destination lies at `target`, in any form
    /// with an address; forms 7 and 8 set the register at the start.
    pub fn aimed(&mut self, seen: &mut Seen, size: u32, target: u32) -> Fields {
        let x = self.maker.rng.below(14) as u8;
        let y = self.maker.rng.below(14) as u8;
        let index = seen[y as usize].wrapping_mul(size);
        let form = self.maker.rng.pick(&[0, 3, 4, 5, 6, 7, 8]);
        self.aimed_in(seen, size, target, form, x, y, index)
    }

    #[allow(clippy::too_many_arguments)]
    fn aimed_in(&mut self, seen: &mut Seen, size: u32, target: u32, form: u8, x: u8, y: u8, index: u32) -> Fields {
        match form {
            0 | 3..=6 => self.addressed(seen, target, form, (x, y), index),
            _ => {
                // Register 12 or 13 holds the place from the start on.
                let x = 12 + self.maker.rng.below(2) as usize;
                let mut state = self.maker.state;
                let (held, after) =
                    if form == 7 { (target.wrapping_add(size), target) } else { (target, target.wrapping_add(size)) };
                if seen[x] != state.registers[x] {
                    // Stepped already by an earlier operand.
                    return asm::absolute(target);
                }
                state.registers[x] = held;
                self.maker.begin(state);
                seen[x] = after;
                if form == 7 {
                    asm::lowered(x as u8)
                } else {
                    asm::raised(x as u8)
                }
            }
        }
    }

    /// An operand in form 5 or 6 whose word can't be read.
    pub fn lost_word(&mut self, seen: &Seen, number: u32) -> Fields {
        let at = self.failing(4, number);
        let x = self.maker.rng.below(12) as u8;
        let y = self.maker.rng.below(12) as u8;
        let z = at.wrapping_sub(seen[x as usize]);
        if self.maker.rng.chance(50) {
            asm::indirect(z, x)
        } else {
            asm::indirect_indexed(z, x, y)
        }
    }

    /// An operand that is fine; steps use registers that other picks leave alone.
    pub fn fine(&mut self, seen: &mut Seen, op: Op, role: Role, format: Format) -> Fields {
        let size = format.size();
        let form = self.maker.rng.pick(forms_of(role, format));
        if form >= 7 {
            let target = self.free_address(size, reason_of(role));
            let (x, y) = (self.maker.rng.below(12) as u8, self.maker.rng.below(12) as u8);
            return self.aimed_in(seen, size, target, form, x, y, 0);
        }
        self.operand(seen, op, role, format, form)
    }

    /// An operand that breaks a form rule for its role and format, by a number
    /// from 0 on; `None` when the rule can't be broken there.
    pub fn broken(&mut self, rule: u32, role: Role, format: Format) -> Option<Fields> {
        let size = format.size();
        let at = self.free_address(4, Reason::Write);
        let written = role == Role::Destination || role == Role::Both;
        let some = 1 + self.maker.rng.below(15) as u8;
        let bit = 1u32 << self.maker.rng.below(32);
        let f = |form, x, y, z| Some(Fields { form, x, y, z });
        let step = 7 + self.maker.rng.below(2) as u8;
        match rule {
            0 => f(0, some, 0, at),
            1 => f(0, 0, some, at),
            2 if written => f(1, 0, 0, self.maker.rng.below(256)),
            3 if role == Role::Address => f(1, 0, 0, at),
            4 if role == Role::Value && format != Format::D => f(1, some, 0, 1),
            5 if role == Role::Value && format != Format::D => f(1, 0, some, 1),
            6 if role == Role::Value && size < 4 => {
                let high = 8 * size + self.maker.rng.below(32 - 8 * size);
                f(1, 0, 0, 1 << high | self.maker.rng.below(256))
            }
            7 if role == Role::Address => f(2, some, 0, 0),
            8 if role != Role::Address => f(2, self.maker.rng.below(14) as u8, some, 0),
            9 if role != Role::Address => f(2, self.maker.rng.below(14) as u8, 0, bit),
            10 => f(3, 0, some, at),
            11 => f(5, 0, some, at),
            12 => f(7, 15, 0, 0),
            13 => f(8, 15, 0, 0),
            14 => f(step, 5, some, 0),
            15 => f(step, 5, 0, bit),
            16 => f(9, 0, 0, at),
            17 => f(10 + self.maker.rng.below(246) as u8, some, 0, at),
            18 => f(8 + 8 * (1 + self.maker.rng.below(30)) as u8, 0, 0, at),
            19 if role == Role::Value && format == Format::D => f(1, 0, 0, bit),
            20 if format == Format::F => f(2, 15, 0, 0),
            21 if format == Format::D => f(2, 14, 0, 0),
            22 if format == Format::D => f(2, 15, 0, 0),
            _ => None,
        }
    }
}

pub const RULES: u32 = 23;
