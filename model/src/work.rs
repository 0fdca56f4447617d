//! Reads and writes of one command, and the alarms that end it.

use crate::map::{entry_at, get, lookup, Real, Reason, Virtual};
use crate::notes::{Note, Notes};
use crate::state::*;

/// Which part of a command an alarm comes from ("One step").
#[derive(Clone, Copy, PartialEq, Eq, PartialOrd, Ord, Debug)]
pub enum Part {
    Byte,
    Mode,
    Fetch(u32),
    Form(u32),
    Indirect(u32),
    Value(u32),
    Stack,
    Operation,
    Write,
}

/// An alarm with its argument and the part of the command it comes from.
#[derive(Clone, Copy, PartialEq, Eq, Debug)]
pub struct Alarm {
    pub number: u32,
    pub argument: u32,
    pub part: Part,
}

/// One command at work. Reads and lookups use `memory`, which stays as it was
/// at the command's start; writes are collected and made when no alarm came.
pub struct Work<'a> {
    pub notes: &'a mut Notes,
    pub start: &'a State,
    pub memory: &'a [u8],
    /// The state as the command changes it.
    pub now: State,
    pub writes: Vec<(Real, u8)>,
}

impl<'a> Work<'a> {
    pub fn new(notes: &'a mut Notes, start: &'a State, memory: &'a [u8]) -> Work<'a> {
        Work { notes, start, memory, now: *start, writes: Vec::new() }
    }

    /// The real place of the byte at `at`, or the alarm by the number that the lookup gives.
    fn place(&mut self, at: u32, reason: Reason, part: Part) -> Result<Real, Alarm> {
        let found = lookup(self.start, self.memory, Virtual(at), reason);
        self.note_lookup(at, reason, part, found.err().unwrap_or(0));
        found.map_err(|number| Alarm { number, argument: at, part })
    }

    /// `count` bytes upward from `address`, each looked up by itself.
    fn bytes(&mut self, address: u32, count: u32, reason: Reason, part: Part) -> Result<Vec<u8>, Alarm> {
        let mut bytes = Vec::new();
        for i in 0..count {
            let real = self.place(address.wrapping_add(i), reason, part)?;
            bytes.push(get(self.memory, real));
        }
        self.note_crossing(address, count, part);
        Ok(bytes)
    }

    /// Bytes of the command itself: the command byte, or the six of an operand.
    pub fn fetch(&mut self, address: u32, count: u32, part: Part) -> Result<Vec<u8>, Alarm> {
        self.bytes(address, count, Reason::Fetch, part)
    }

    /// Bytes that the command reads.
    pub fn read(&mut self, address: u32, count: u32, part: Part) -> Result<Vec<u8>, Alarm> {
        self.bytes(address, count, Reason::Read, part)
    }

    /// A value of `size` bytes, highest byte first.
    pub fn read_value(&mut self, address: u32, size: u32, part: Part) -> Result<u64, Alarm> {
        let bytes = self.read(address, size, part)?;
        Ok(bytes.iter().fold(0, |value, byte| value << 8 | u64::from(*byte)))
    }

    pub fn read_word(&mut self, address: u32, part: Part) -> Result<u32, Alarm> {
        Ok(self.read_value(address, 4, part)? as u32)
    }

    /// Collects the writing of bytes upward from `address`, each looked up by itself.
    pub fn write(&mut self, address: u32, bytes: &[u8]) -> Result<(), Alarm> {
        let part = Part::Write;
        for (i, byte) in bytes.iter().enumerate() {
            let real = self.place(address.wrapping_add(i as u32), Reason::Write, part)?;
            self.writes.push((real, *byte));
        }
        self.note_crossing(address, bytes.len() as u32, part);
        Ok(())
    }

    /// A value of `size` bytes, highest byte first.
    pub fn write_value(&mut self, address: u32, size: u32, value: u64) -> Result<(), Alarm> {
        let bytes = value.to_be_bytes();
        self.write(address, &bytes[8 - size as usize..])
    }

    pub fn write_word(&mut self, address: u32, value: u32) -> Result<(), Alarm> {
        self.write_value(address, 4, u64::from(value))
    }

    fn note_lookup(&mut self, at: u32, reason: Reason, part: Part, number: u32) {
        if self.start.kernel() {
            return;
        }
        if let Some(entry) = entry_at(self.start, self.memory, Virtual(at)) {
            self.notes.add(Note::Lookup { at, entry, reason, part, number });
        }
    }

    fn note_crossing(&mut self, address: u32, count: u32, part: Part) {
        let last = address.wrapping_add(count - 1);
        if !self.start.kernel() && address / FRAME_BYTES != last / FRAME_BYTES {
            self.notes.add(Note::Crossing(part));
        }
    }
}
