//! Remarks of the model for the coverage table; they change nothing.

use crate::code::{FloatOp, Format, Role};
use crate::floats::Number;
use crate::map::Reason;
use crate::work::Part;

#[derive(Clone, Copy, PartialEq, Eq, Debug)]
pub enum Note {
    /// A command byte was fetched.
    Command(u8),
    /// An operand was fetched: its fields, role, format, and the broken rule if any.
    Operand {
        form: u8,
        x: u8,
        y: u8,
        role: Role,
        format: Format,
        broken: Option<&'static str>,
    },
    /// The operation of a command that sets flags gets these values.
    Values {
        first: u32,
        second: u32,
    },
    /// The operation of a command on floating numbers gets these; MOVE's second one means nothing.
    Numbers {
        op: FloatOp,
        first: Number,
        second: Number,
    },
    Alarm {
        number: u32,
        part: Part,
    },
    /// A byte was looked up by an entry of the map; `number` is 0 if it was found.
    Lookup {
        at: u32,
        entry: u32,
        reason: Reason,
        part: Part,
        number: u32,
    },
    /// Bytes in two pages were read or written without an alarm.
    Crossing(Part),
    /// RESUME was tried: "good", or why not.
    Resume(&'static str),
    /// An entry's status was refused.
    BadEntry {
        cause: u32,
        reason: &'static str,
    },
}

/// Collects remarks, or drops them.
pub struct Notes(Option<Vec<Note>>);

impl Notes {
    pub fn none() -> Notes {
        Notes(None)
    }

    pub fn kept() -> Notes {
        Notes(Some(Vec::new()))
    }

    pub fn add(&mut self, note: Note) {
        if let Some(list) = &mut self.0 {
            list.push(note);
        }
    }

    pub fn list(&self) -> &[Note] {
        self.0.as_deref().unwrap_or(&[])
    }
}
