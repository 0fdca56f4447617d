//! Programs for runs to breakpoints. They never end: loops, calls, jumps, system calls, alarms.

use super::layout::{layout, Kind, Layout};
use super::maker::Maker;
use crate::asm::*;
use crate::operand::Fields;
use crate::rng::Rng;
use crate::state::*;

/// Where a program begins.
#[derive(Clone, Copy, PartialEq, Eq, Debug)]
pub enum Mode {
    User,
    Kernel,
    /// In kernel mode, which goes on by RESUME to the user program.
    Resuming,
}

pub const MODES: [Mode; 3] = [Mode::User, Mode::Kernel, Mode::Resuming];

pub struct Program {
    pub maker: Maker,
    mode: Mode,
    /// The first command of the program that never ends.
    pub start: u32,
    /// The first commands of the handlers: of system calls, of alarms, of interrupts.
    pub handlers: [u32; 3],
}

impl Program {
    /// Lays commands over the first ones, also where kernel code comes before them.
    pub fn lay(&mut self, code: &[u8]) {
        let first = self.maker.state;
        if self.mode == Mode::Resuming {
            self.maker.begin(State { status: first.status & !KERNEL, ..first });
        }
        self.maker.code_at(self.start, code);
        self.maker.begin(first);
    }
}

/// Commands one after another from an address on.
struct Code {
    at: u32,
    bytes: Vec<u8>,
}

impl Code {
    fn here(&self) -> u32 {
        self.at + self.bytes.len() as u32
    }

    fn add(&mut self, byte: u8, operands: &[Fields]) {
        self.bytes.extend(command(byte, operands));
    }

    /// A command that goes straight on. `data` is a word that may be changed.
    fn simple(&mut self, rng: &mut Rng, data: u32) {
        let (value, to) = (rng.word(), register(rng.below(8) as u8));
        match rng.below(6) {
            0 => self.add(0x12, &[immediate(value), to]),
            1 => self.add(0x42, &[immediate(value), to]),
            2 => self.add(0x12, &[to, absolute(data)]),
            3 => self.add(0x42, &[immediate(1), absolute(data)]),
            4 => self.add(0x66, &[immediate(value), to]),
            _ => self.add(0x16, &[to]),
        }
    }

    /// Some commands that come out behind themselves.
    fn part(&mut self, rng: &mut Rng, data: u32, kernel: bool) {
        match rng.below(10) {
            0 | 1 => {
                // R9 counts the rounds.
                self.add(0x12, &[immediate(1 + rng.below(4)), register(9)]);
                let again = self.here();
                self.simple(rng, data);
                self.add(0x4A, &[immediate(1), register(9)]);
                self.add(0x73, &[absolute(again)]);
            }
            2 => {
                // Over a subroutine, which is then called.
                let mut body = Code { at: self.here() + 7, bytes: Vec::new() };
                body.simple(rng, data);
                body.add(0x7A, &[]);
                self.add(0x70, &[absolute(body.here())]);
                self.bytes.extend(&body.bytes);
                self.add(0x79, &[absolute(body.at)]);
            }
            way @ (3 | 4) => {
                // Over some bytes, by a jump or by a result in R15.
                let skipped = 1 + rng.below(8);
                if way == 3 {
                    self.add(0x70, &[absolute(self.here() + 7 + skipped)]);
                } else {
                    self.add(0x12, &[immediate(self.here() + 13 + skipped), register(15)]);
                }
                self.bytes.extend((0..skipped).map(|_| rng.word() as u8));
            }
            5 => {
                // Commands of one byte: their addresses follow each other.
                self.add(0x01, &[]);
                self.add(0x02, &[]);
            }
            6 if !kernel => self.add(3, &[immediate(rng.word())]),
            7 if !kernel => self.add(rng.pick(&[0x00, 0xFE]), &[]),
            _ => self.simple(rng, data),
        }
    }
}

/// Lays handlers that come back: behind the command after an alarm, which has one byte here.
fn handlers(maker: &mut Maker) -> [u32; 3] {
    let State { system_block, control_block, .. } = maker.state;
    let cell = maker.kernel_place(4);
    let handlers = [cell, control_block + 60, cell].map(|counted| {
        let code = [command(0x42, &[immediate(1), absolute(counted)]), command(5, &[absolute(control_block)])].concat();
        let at = maker.kernel_place(code.len() as u32);
        maker.lay(at, &code);
        at
    });
    for cause in 1..32 {
        let kind = match cause {
            1 => 0,
            17.. => 2,
            _ => 1,
        };
        let status = KERNEL | if maker.rng.chance(30) { maker.rng.word() & (LEVEL | FLAGS) } else { 0 };
        maker.lay_word(system_block + 8 * cause, handlers[kind]);
        maker.lay_word(system_block + 8 * cause + 4, status);
    }
    handlers
}

/// A program of some parts and a jump back to the first.
pub fn program(rng: &mut Rng, mode: Mode) -> Program {
    let kinds = [Kind::Writable, Kind::Writable, Kind::Writable, Kind::Absent];
    let Layout { mut maker, first_frame, .. } = layout(Rng::new(rng.next()), &kinds, false);
    let handlers = handlers(&mut maker);
    let mut state = maker.state;
    if mode == Mode::Kernel {
        state.status |= KERNEL;
    }
    let base = if mode == Mode::Kernel { first_frame * FRAME_BYTES } else { 0 };
    let start = base + 100 + rng.below(450);
    let data = base + 1024 + rng.below(200);
    for i in 0..14 {
        state.registers[i] = rng.word();
    }
    state.registers[SP] = base + 1400;
    state.registers[PC] = start;
    maker.begin(state);
    let mut code = Code { at: start, bytes: Vec::new() };
    for _ in 0..3 + rng.below(3) {
        code.part(rng, data, mode == Mode::Kernel);
    }
    code.add(0x70, &[absolute(start)]);
    maker.code(&code.bytes);
    if mode == Mode::Resuming {
        resuming(rng, &mut maker);
    }
    Program { maker, mode, start, handlers }
}

/// Puts the state into the control block, and kernel code before it that resumes it.
fn resuming(rng: &mut Rng, maker: &mut Maker) {
    let mut state = maker.state;
    for (i, word) in state.registers.into_iter().chain([state.status]).enumerate() {
        maker.lay_word(state.control_block + 4 * i as u32, word);
    }
    let cell = maker.kernel_place(4);
    let at = maker.kernel_place(60);
    let mut code = Code { at, bytes: Vec::new() };
    for _ in 0..1 + rng.below(3) {
        code.simple(rng, cell);
    }
    code.add(5, &[absolute(state.control_block)]);
    state.status = KERNEL | rng.word() & (LEVEL | FLAGS);
    state.registers[PC] = at;
    maker.begin(state);
    maker.code(&code.bytes);
}
