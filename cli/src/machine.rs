//! A desk with its memory and with what the file tells of names and programs; single steps with what they changed.

use crate::decode::{self, Decoded, Trouble};
use crate::effect::{self, Piece};
use crate::forms;
use crate::image::{Image, Program, SourceLine};
use crate::names::Names;
use crate::notation;
use crate::options;
use crate::table::{Role, Size};
use crate::view;
use midesk::{Desk, Event, Refusal};

/// What the file tells of addresses.
#[derive(Clone, Debug)]
pub struct Known {
    pub real: Names,
    pub programs: Vec<Program>,
    pub lines: Vec<SourceLine>,
    none: Names,
}

/// A desk over a memory.
#[derive(Clone, Debug)]
pub struct Machine {
    pub known: Known,
    pub memory: Vec<u8>,
    pub desk: Desk,
    /// Steps made so far.
    pub steps: u64,
}

/// Bytes of memory that a step changed: at the address that the command used, and at the real one.
#[derive(Clone, PartialEq, Eq, Debug)]
pub struct Change {
    pub address: u32,
    pub real: u32,
    pub old: Vec<u8>,
    pub new: Vec<u8>,
}

/// A step: the command (none for an interrupt), what came of it, and what it changed.
#[derive(Clone, Debug)]
pub struct Step {
    pub number: u64,
    pub before: Desk,
    pub after: Desk,
    pub command: Option<Result<Decoded, Trouble>>,
    pub event: Event,
    pub changes: Vec<Change>,
    /// The bytes of the control block that an entry wrote over.
    pub saved: Option<Change>,
    /// The bits of the floating number that the command gave, and its kind.
    pub result: Option<(u64, Size)>,
}

impl Machine {
    /// A fresh desk over the image's memory.
    pub fn fresh(image: Image) -> Result<Machine, Refusal> {
        let desk = Desk::fresh(&image.memory, image.system, image.control, image.start)?;
        let known = Known { real: image.names, programs: image.programs, lines: image.lines, none: Names::none() };
        Ok(Machine { known, memory: image.memory, desk, steps: 0 })
    }

    /// The command at an address of the present mode.
    pub fn command_at(&self, address: u32) -> Result<Decoded, Trouble> {
        command_at(&self.desk, &self.memory, address)
    }

    /// One step.
    pub fn step(&mut self) -> Result<Step, Refusal> {
        let before = self.desk.clone();
        let command = match due(&before) {
            Some(_) => None,
            None => Some(self.command_at(before.register(15))),
        };
        let written = match &command {
            Some(Ok(command)) => effect::writes(&before, &self.memory, command),
            _ => Vec::new(),
        };
        let block = Piece { address: before.control_block(), real: before.control_block(), length: 72 };
        let olds: Vec<(Piece, Vec<u8>)> = written.into_iter().map(|piece| (piece, self.bytes(piece))).collect();
        let old_block = if before.is_kernel() { Vec::new() } else { self.bytes(block) };
        let event = self.desk.step(&mut self.memory)?;
        self.steps += 1;
        let entered = matches!(event, Event::Entered(_));
        let result = match (&command, event) {
            (Some(Ok(command)), Event::Done) => self.result(command, olds.iter().map(|(piece, _)| *piece)),
            _ => None,
        };
        let saved = entered.then(|| self.change(block, old_block));
        let changes = match entered {
            true => Vec::new(),
            false => olds.into_iter().map(|(piece, old)| self.change(piece, old)).filter(|c| c.old != c.new).collect(),
        };
        Ok(Step { number: self.steps, before, after: self.desk.clone(), command, event, changes, saved, result })
    }

    /// What a command of floating numbers has left in its last operand, which is a register, or these pieces of memory.
    fn result(&self, command: &Decoded, written: impl Iterator<Item = Piece>) -> Option<(u64, Size)> {
        let size = command.command.size.filter(|size| size.is_floating())?;
        let (fields, rule) = command.operands.last().zip(command.command.operands.last())?;
        let bytes: Vec<u8> = match (rule.role, fields.form) {
            (Role::Value | Role::Address, _) => return None,
            (_, forms::REGISTER) => {
                let words = (usize::from(fields.x)..).take(size.bytes() as usize / 4);
                words.flat_map(|register| self.desk.register(register).to_be_bytes()).collect()
            }
            _ => written.flat_map(|piece| self.bytes(piece)).collect(),
        };
        let bits = bytes.iter().fold(0, |bits, byte| bits << 8 | u64::from(*byte));
        (bytes.len() == size.bytes() as usize).then_some((bits, size))
    }

    fn change(&self, piece: Piece, old: Vec<u8>) -> Change {
        Change { address: piece.address, real: piece.real, old, new: self.bytes(piece) }
    }

    fn bytes(&self, piece: Piece) -> Vec<u8> {
        let from = piece.real as usize;
        self.memory.get(from..from.saturating_add(piece.length as usize)).unwrap_or_default().to_vec()
    }

    /// Puts the desk and the bytes back as they were before a step.
    pub fn undo(&mut self, before: Desk, changes: &[(u32, Vec<u8>)]) {
        for (real, old) in changes {
            let from = *real as usize;
            if let Some(bytes) = self.memory.get_mut(from..from.saturating_add(old.len())) {
                bytes.copy_from_slice(old);
            }
        }
        self.desk = before;
        self.steps = self.steps.saturating_sub(1);
    }
}

/// The command at an address of the desk's mode, if it can be fetched there.
pub fn command_at(desk: &Desk, memory: &[u8], address: u32) -> Result<Decoded, Trouble> {
    decode::of_fetched(&|at| effect::fetched_byte(desk, memory, at), address)
}

/// The level of the interrupt that the next step enters.
pub fn due(desk: &Desk) -> Option<u32> {
    let highest = 15_u32.checked_sub(desk.pending().leading_zeros())?;
    (!desk.is_kernel() && highest > desk.level()).then_some(highest)
}

impl Known {
    /// The program that runs in user mode with this desk.
    pub fn program(&self, desk: &Desk) -> Option<&Program> {
        let block = self.programs.iter().find(|program| program.control_block == desk.control_block());
        block.or_else(|| self.programs.iter().find(|program| program.map_base == desk.map_base()))
    }

    /// The names of the addresses of the desk's mode.
    pub fn names(&self, desk: &Desk) -> &Names {
        match desk.is_kernel() {
            true => &self.real,
            false => self.program(desk).map_or(&self.none, |program| &program.names),
        }
    }

    /// A real address in words: `block (100h)`, `100h`.
    pub fn real_place(&self, address: u32) -> String {
        place(&self.real, address)
    }

    /// An address of the desk's mode in words: `loop+13 (20Dh)`.
    pub fn place(&self, desk: &Desk, address: u32) -> String {
        place(self.names(desk), address)
    }

    /// Who runs: `the kernel`, `program A`, `the program of block 100h`.
    pub fn who(&self, desk: &Desk) -> String {
        match (desk.is_kernel(), self.program(desk)) {
            (true, _) => "the kernel".to_string(),
            (false, Some(program)) => format!("program {}", program.name),
            (false, None) => format!("the program of block {}", self.real_place(desk.control_block())),
        }
    }

    /// The real address of a number, of a name of the kernel's, or of a program's by way of its map.
    pub fn real_address(&self, memory: &[u8], text: &str) -> Option<u32> {
        let of_program = |program: &Program| {
            let address = program.names.address_of(text).or_else(|| {
                let (name, _) = text.split_once('+')?;
                program.names.address_of(name)?;
                options::address(text, &program.names)
            })?;
            view::real(memory, program.map_base, program.map_length, address).ok().map(|(real, _)| real)
        };
        options::address(text, &self.real).or_else(|| self.programs.iter().find_map(of_program))
    }

    /// What an address can be, with names of this file: for a sentence about `text`, which is none.
    pub fn address_words(&self, text: &str) -> String {
        let names = std::iter::once(&self.real).chain(self.programs.iter().map(|program| &program.names));
        options::examples(text, names.flat_map(Names::iter))
    }

    /// The sentence for what is no address; its example is a name that the file has.
    pub fn no_address(&self, text: &str) -> String {
        format!("'{}' is no address: {}", options::shown(text), self.address_words(text))
    }

    /// The line of the source that gave the byte at a real address.
    pub fn line(&self, real: u32) -> Option<&SourceLine> {
        self.lines.iter().find(|line| line.address == real)
    }
}

/// An address with its name, or the nearest name before it, if there is one within a frame.
pub fn place(names: &Names, address: u32) -> String {
    let number = notation::hexadecimal(address);
    match names.nearest(address) {
        Some((name, 0)) => format!("{name} ({number})"),
        Some((name, distance @ 1..=511)) => format!("{name}+{distance} ({number})"),
        _ => number,
    }
}
