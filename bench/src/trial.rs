//! For tests: one command on a small desk, and what every contender must leave of it.

use crate::contender::{Contender, CONTENDERS};
use crate::state::{State, KERNEL, RUNNING};
use std::fmt::Debug;

pub const LENGTH: u32 = 8192;
const CONTROL_BLOCK: u32 = 256;
const MAP: u32 = 512;
/// The command.
pub const START: u32 = 1024;
/// Entry i of the system block leads to the address i bytes from here.
const ENTRIES: u32 = 0x600;
/// Level 5 and all flags, so that those show which a command clears.
const STATUS: u32 = 0x5F;

#[derive(Clone, PartialEq, Eq)]
pub struct Trial {
    pub memory: Vec<u8>,
    pub state: State,
    /// Bytes of the command.
    bytes: u32,
}

/// Where a number stands: from a register on, or from an address on.
#[derive(Clone, Copy, Debug)]
pub enum Place {
    Register(u8),
    At(u32),
}

/// The six bytes of an operand.
pub fn operand(form: u8, x: u8, y: u8, z: u32) -> [u8; 6] {
    let z = z.to_be_bytes();
    [form, x << 4 | y, z[0], z[1], z[2], z[3]]
}

/// `I z`
pub fn value(z: u32) -> [u8; 6] {
    operand(1, 0, 0, z)
}

impl Place {
    /// In form 2 or 0.
    pub fn operand(self) -> [u8; 6] {
        match self {
            Place::Register(x) => operand(2, x, 0, 0),
            Place::At(address) => operand(0, 0, 0, address),
        }
    }
}

impl Trial {
    /// A desk in user mode before this command. Each page is in the frame of its number.
    pub fn new(code: u8, operands: &[[u8; 6]]) -> Trial {
        let mut registers = [0; 16];
        registers[15] = START;
        let state = State {
            registers,
            status: STATUS,
            map_base: MAP,
            map_length: LENGTH / 512,
            system_block: 0,
            control_block: CONTROL_BLOCK,
            stopped: RUNNING,
            pending: 0,
        };
        let command: Vec<u8> = [code].into_iter().chain(operands.iter().flatten().copied()).collect();
        let mut trial = Trial { memory: vec![0; LENGTH as usize], state, bytes: command.len() as u32 };
        for cause in 0..32 {
            trial.put(8 * cause, &(ENTRIES + cause).to_be_bytes());
            trial.put(8 * cause + 4, &KERNEL.to_be_bytes());
        }
        for page in 0..LENGTH / 512 {
            trial.map(page, 0xC000_0000 | page);
        }
        trial.put(START, &command);
        trial
    }

    /// The same in both modes.
    pub fn in_both_modes(self) -> [Trial; 2] {
        let mut kernel = self.clone();
        kernel.state.status |= KERNEL;
        [self, kernel]
    }

    pub fn map(&mut self, page: u32, entry: u32) {
        self.put(MAP + 4 * page, &entry.to_be_bytes());
    }

    /// Bytes from a real address on.
    pub fn put(&mut self, address: u32, bytes: &[u8]) {
        let at = address as usize;
        self.memory[at..at + bytes.len()].copy_from_slice(bytes);
    }

    /// A number of 4 or 8 bytes: the high word first.
    pub fn set(&mut self, place: Place, size: usize, bits: u64) {
        let bytes = &bits.to_be_bytes()[8 - size..];
        match place {
            Place::Register(x) => {
                for (register, word) in self.state.registers[x as usize..].iter_mut().zip(bytes.chunks_exact(4)) {
                    *register = u32::from_be_bytes(word.try_into().unwrap());
                }
            }
            Place::At(address) => self.put(address, bytes),
        }
    }

    /// The desk after the command, as far as every command leaves it: R15 past it, and these flags.
    pub fn done(&self, flags: u32) -> Trial {
        let mut after = self.clone();
        after.state.registers[15] += self.bytes;
        after.state.status = self.state.status & !15 | flags;
        after
    }

    /// The desk after an alarm: stopped in kernel mode, else entered.
    pub fn alarmed(&self, number: u32, argument: u32) -> Trial {
        let mut after = self.clone();
        if self.state.status & KERNEL != 0 {
            after.state.stopped = number;
            return after;
        }
        let saved = self.state.registers.into_iter().chain([self.state.status, argument]);
        after.put(CONTROL_BLOCK, &saved.flat_map(u32::to_be_bytes).collect::<Vec<u8>>());
        after.state.registers[15] = ENTRIES + number;
        after.state.status = KERNEL;
        after
    }

    /// Every contender must end the command without an alarm, R15 past it, and all alike.
    pub fn must_be_quiet(&self, what: impl Debug) {
        let mut expected = self.clone();
        assert_eq!(Contender::Word.run(&mut expected.memory, &mut expected.state, 1), Ok(1), "{what:X?}");
        let r15 = self.state.registers[15] + self.bytes;
        assert_eq!((expected.state.stopped, expected.state.registers[15]), (RUNNING, r15), "{what:X?}");
        self.must_leave(&expected, what);
    }

    /// Every contender must come from this desk to that one by a step.
    pub fn must_leave(&self, expected: &Trial, what: impl Debug) {
        for contender in CONTENDERS {
            let mut after = self.clone();
            assert_eq!(contender.run(&mut after.memory, &mut after.state, 1), Ok(1), "{contender:?}, {what:X?}");
            assert_eq!(after.state, expected.state, "{contender:?}, {what:X?}");
            let at = after.memory.iter().zip(&expected.memory).position(|(a, b)| a != b);
            assert_eq!(at, None, "{contender:?}, {what:X?}: memory");
        }
    }
}
