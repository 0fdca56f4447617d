//! Picks operands and commands that can run in a layout.

use super::float_values::{any_bits, bytes_of};
use super::layout::{Layout, DATA_KINDS};
use crate::arith;
use crate::asm;
use crate::code::{decode, Format, Op, Role};
use crate::map::Reason;
use crate::operand::Fields;
use crate::state::*;

/// Forms that a role and a format allow.
pub fn forms_of(role: Role, format: Format) -> &'static [u8] {
    match role {
        Role::Value if format == Format::D => &[0, 2, 3, 4, 5, 6, 7, 8],
        Role::Value => &[0, 1, 2, 3, 4, 5, 6, 7, 8],
        Role::Address => &[0, 3, 4, 5, 6, 7, 8],
        Role::Destination | Role::Both => &[0, 2, 3, 4, 5, 6, 7, 8],
    }
}

/// The registers that form 2 allows for a format: so many from R0 on.
pub fn registers_of(format: Format) -> u32 {
    match format {
        Format::F => 15,
        Format::D => 14,
        _ => 16,
    }
}

/// Why a command uses the bytes of an operand in a role.
pub fn reason_of(role: Role) -> Reason {
    match role {
        Role::Value | Role::Address => Reason::Read,
        Role::Destination | Role::Both => Reason::Write,
    }
}

/// Registers as an operand sees them, with the steps of earlier operands.
pub type Seen = [u32; 16];

impl Layout {
    fn kernel(&self) -> bool {
        self.maker.state.kernel()
    }

    /// Whether none of the bytes holds laid code and all can be read.
    pub fn plain(&self, address: u32, size: u32) -> bool {
        self.plain_for(Reason::Read, address, size)
    }

    /// Whether none of the bytes holds laid code and all can be used for a reason.
    pub fn plain_for(&self, reason: Reason, address: u32, size: u32) -> bool {
        (0..size).all(|i| match self.maker.real_for(reason, address.wrapping_add(i)) {
            Some(real) => !self.maker.owned(real),
            None => false,
        })
    }

    /// An address for `size` bytes, if possible without laid code.
    pub fn free_address(&mut self, size: u32, reason: Reason) -> u32 {
        let mut address = 0;
        for _ in 0..12 {
            address = self.address(self.kernel(), size, reason);
            if self.plain(address, size) {
                break;
            }
        }
        address
    }

    /// A place where the desk can go on with new code.
    pub fn code_target(&mut self) -> u32 {
        let mut address = 0;
        for _ in 0..20 {
            address = self.address(self.kernel(), 1, Reason::Fetch);
            if self.plain_for(Reason::Fetch, address, 24) {
                break;
            }
        }
        address
    }

    /// Lays bytes at an address as far as it can be looked up.
    pub fn lay_at(&mut self, address: u32, bytes: &[u8]) {
        for (i, byte) in bytes.iter().enumerate() {
            if let Some(real) = self.maker.real(address.wrapping_add(i as u32)) {
                if !self.maker.owned(real) {
                    self.maker.lay(real, &[*byte]);
                }
            }
        }
    }

    /// A register whose value, moved by `difference`, is a usable address.
    fn stepping(&mut self, seen: &Seen, size: u32, reason: Reason, down: bool) -> u8 {
        let first = self.maker.rng.below(15);
        for i in 0..15 {
            let x = (first + i) % 15;
            let at = if down { seen[x as usize].wrapping_sub(size) } else { seen[x as usize] };
            if self.plain_for(reason, at, size) {
                return x as u8;
            }
        }
        4 + self.maker.rng.below(6) as u8
    }

    /// Fields of an operand in form 0 or 3 to 6 whose address is the target; `index` is what register y adds.
    pub fn addressed(&mut self, seen: &Seen, target: u32, form: u8, (x, y): (u8, u8), index: u32) -> Fields {
        let base = seen[x as usize];
        match form {
            0 => asm::absolute(target),
            3 => asm::relative(target.wrapping_sub(base), x),
            4 => asm::indexed(target.wrapping_sub(base).wrapping_sub(index), x, y),
            _ => {
                let at = self.free_address(4, Reason::Read);
                let word = if form == 5 { target } else { target.wrapping_sub(index) };
                self.lay_at(at, &word.to_be_bytes());
                let z = at.wrapping_sub(base);
                if form == 5 {
                    asm::indirect(z, x)
                } else {
                    asm::indirect_indexed(z, x, y)
                }
            }
        }
    }

    /// Fields of an operand in a given form. `seen[15]` is the address after it.
    pub fn operand(&mut self, seen: &mut Seen, op: Op, role: Role, format: Format, form: u8) -> Fields {
        let size = format.size();
        let reason = reason_of(role);
        let jumps = matches!(op, Op::Jump(_) | Op::Call);
        let target = if jumps {
            self.code_target()
        } else if role == Role::Address && self.maker.rng.chance(50) {
            self.maker.rng.word()
        } else {
            self.free_address(size, reason)
        };
        let mut x = self.maker.rng.below(15) as u8;
        if self.maker.rng.chance(10) {
            x = 15;
        }
        let y = if self.maker.rng.chance(8) { 15 } else { self.maker.rng.below(14) as u8 };
        let index = seen[y as usize].wrapping_mul(size);
        let used = (role == Role::Value || role == Role::Both) && !matches!(form, 1 | 2 | 7 | 8);
        if used && self.maker.rng.chance(50) {
            let value = any_bits(&mut self.maker.rng, format);
            self.lay_at(target, &bytes_of(value, format));
        }
        match form {
            1 => {
                let mut chosen = any_bits(&mut self.maker.rng, format) as u32;
                if chosen == 0 && op == Op::Div && self.maker.rng.chance(80) {
                    chosen = 3;
                }
                if matches!(op, Op::Sh | Op::Rot) && self.maker.rng.chance(60) {
                    chosen = self.maker.rng.below(80).wrapping_sub(40);
                }
                asm::immediate(chosen)
            }
            2 => {
                if reason == Reason::Write && x == 15 && self.maker.rng.chance(60) {
                    x = 10;
                }
                asm::register(x % registers_of(format) as u8)
            }
            0 | 3..=6 => self.addressed(seen, target, form, (x, y), index),
            7 => {
                let x = self.stepping(seen, size, reason, true);
                seen[x as usize] = seen[x as usize].wrapping_sub(size);
                asm::lowered(x)
            }
            _ => {
                let x = self.stepping(seen, size, reason, false);
                seen[x as usize] = seen[x as usize].wrapping_add(size);
                asm::raised(x)
            }
        }
    }

    /// A command at R15; `forced` names the form of one operand (from 0).
    pub fn pick_command(&mut self, byte: u8, forced: Option<(usize, u8)>) -> Vec<u8> {
        let known = match decode(byte) {
            Some(known) => known,
            None => return vec![byte],
        };
        let mut seen = self.maker.state.registers;
        self.stack_ready(known.op, &seen);
        let mut operands = Vec::new();
        seen[PC] = seen[PC].wrapping_add(1);
        for (i, (role, format)) in known.operands.iter().enumerate() {
            seen[PC] = seen[PC].wrapping_add(6);
            let form = match forced {
                Some((place, form)) if place == i => form,
                _ => self.maker.rng.pick(forms_of(*role, *format)),
            };
            operands.push(self.operand(&mut seen, known.op, *role, *format, form));
        }
        asm::command(byte, &operands)
    }

    /// An address in a page without commands, or so little before it that the page cuts a command
    /// there; `None` without such a page.
    pub fn data_address(&mut self) -> Option<u32> {
        let pages = self.pages(&DATA_KINDS);
        if pages.is_empty() {
            return None;
        }
        let start = self.maker.rng.pick(&pages) * FRAME_BYTES;
        if self.maker.rng.chance(40) {
            return Some(start.wrapping_sub(1 + self.maker.rng.below(18)));
        }
        Some(start + self.maker.rng.below(FRAME_BYTES))
    }

    /// A command at R15 that goes on at an address: a jump that is taken or CALL, RET, which gets
    /// the address on its stack, or, for another byte, MOVE W to R15.
    pub fn leading(&mut self, byte: u8, target: u32) -> Vec<u8> {
        let mut seen = self.maker.state.registers;
        match byte {
            0x70..=0x79 => {
                seen[PC] = seen[PC].wrapping_add(7);
                let form = self.maker.rng.pick(&[0, 3, 4, 5, 6]);
                let (x, y) = (self.maker.rng.below(14) as u8, self.maker.rng.below(14) as u8);
                let index = seen[y as usize].wrapping_mul(4);
                let operand = self.addressed(&seen, target, form, (x, y), index);
                asm::command(byte, &[operand])
            }
            0x7A => {
                self.lay_at(seen[SP], &target.to_be_bytes());
                vec![byte]
            }
            _ => asm::command(0x12, &[asm::immediate(target), asm::register(15)]),
        }
    }

    /// A command at R15 that goes on at an address, whichever of them can run here.
    pub fn any_leading(&mut self, target: u32) -> Vec<u8> {
        let byte = self.maker.rng.pick(&[0x70, 0x70, 0x71, 0x72, 0x73, 0x74, 0x75, 0x76, 0x77, 0x78, 0x79, 0x7A, 0x12]);
        let good = match byte {
            0x70..=0x78 => arith::taken(byte, self.maker.state.status),
            0x7A => self.plain(self.maker.state.registers[SP], 4),
            _ => true,
        };
        self.leading(if good { byte } else { 0x70 }, target)
    }

    /// Lays what RET and POPR are to find on the stack.
    fn stack_ready(&mut self, op: Op, seen: &Seen) {
        let sp = seen[SP];
        if op == Op::Ret {
            let target = self.code_target();
            if self.plain(sp, 4) {
                self.lay_at(sp, &target.to_be_bytes());
            }
        }
        if op == Op::Popr && self.plain(sp, 60) && self.maker.rng.chance(70) {
            for i in 0..15 {
                let word = match i {
                    4..=9 | 14 => self.address(self.kernel(), 4, Reason::Write),
                    _ => self.maker.rng.below(12),
                };
                self.lay_at(sp + 4 * i, &word.to_be_bytes());
            }
        }
    }

    /// Moves R15 and R14 of the start to places where code and stack have room.
    pub fn aim(&mut self) {
        let mut state = self.maker.state;
        state.registers[PC] = self.code_target();
        for _ in 0..20 {
            state.registers[SP] = self.address(state.kernel(), 4, Reason::Write);
            if self.plain(state.registers[SP].wrapping_sub(60), 120) {
                break;
            }
        }
        self.maker.begin(state);
    }

    /// After an entry: kernel code that leads back to user mode at `target`.
    pub fn go_on_at(&mut self, target: u32) {
        let block = self.maker.state.control_block;
        let to = self.maker.point_at(block + 60);
        let resume = self.maker.resume_here();
        self.maker.kernel_commands(&[asm::command(0x12, &[asm::immediate(target), to]), resume]);
    }
}
