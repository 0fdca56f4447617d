//! Bytes to a command.

use crate::forms;
use crate::table::{self, Command, Flow, Role};

/// The six bytes of an operand.
#[derive(Clone, Copy, PartialEq, Eq, Debug)]
pub struct Fields {
    pub form: u8,
    pub x: u8,
    pub y: u8,
    pub z: u32,
}

/// A command that keeps all rules that its bytes can break.
#[derive(Clone, PartialEq, Eq, Debug)]
pub struct Decoded {
    pub address: u32,
    pub bytes: Vec<u8>,
    pub command: &'static Command,
    pub operands: Vec<Fields>,
}

/// Why the bytes at an address are no command.
#[derive(Clone, Copy, PartialEq, Eq, Debug)]
pub enum Trouble {
    /// The byte at this address cannot be read.
    Unreadable(u32),
    /// The byte at this address can be read, but not fetched (alarm 21).
    NoFetch(u32),
    /// No command has this byte (alarm 12).
    Unknown(u8),
    /// The operand at this place, from 1, breaks a rule (alarm 14).
    Form { place: usize, fields: Fields },
}

/// The command at an address; `read` gives the byte at an address, if there is one.
pub fn decode(read: &dyn Fn(u32) -> Option<u8>, address: u32) -> Result<Decoded, Trouble> {
    of_fetched(&|at| read(at).ok_or(Trouble::Unreadable(at)), address)
}

/// The command at an address; `fetch` gives the byte at an address, or why it cannot be fetched.
pub fn of_fetched(fetch: &dyn Fn(u32) -> Result<u8, Trouble>, address: u32) -> Result<Decoded, Trouble> {
    let first = fetch(address)?;
    let command = table::command(first).ok_or(Trouble::Unknown(first))?;
    let mut decoded = Decoded { address, bytes: vec![first], command, operands: Vec::new() };
    for (place, operand) in command.operands.iter().enumerate() {
        let mut six = [0; 6];
        for byte in &mut six {
            let at = decoded.next();
            *byte = fetch(at)?;
            decoded.bytes.push(*byte);
        }
        let fields = Fields::of_bytes(six);
        if !forms::allowed(&fields, *operand) {
            return Err(Trouble::Form { place: place + 1, fields });
        }
        decoded.operands.push(fields);
    }
    Ok(decoded)
}

impl Fields {
    pub fn of_bytes(six: [u8; 6]) -> Fields {
        let [form, registers, a, b, c, d] = six;
        Fields { form, x: registers >> 4, y: registers & 15, z: u32::from_be_bytes([a, b, c, d]) }
    }

    pub fn to_bytes(self) -> [u8; 6] {
        let [a, b, c, d] = self.z.to_be_bytes();
        [self.form, self.x << 4 | self.y & 15, a, b, c, d]
    }
}

impl Decoded {
    /// The address after the command.
    pub fn next(&self) -> u32 {
        self.address.wrapping_add(self.bytes.len() as u32)
    }

    /// What R15 reads as inside the operand at a place, from 0: the address after its six bytes.
    pub fn r15_in(&self, place: usize) -> u32 {
        self.address.wrapping_add(7 + 6 * place as u32)
    }

    /// The address that the operand at a place names by itself, whatever the registers hold.
    pub fn fixed_address(&self, place: usize) -> Option<u32> {
        let fields = self.operands.get(place)?;
        match fields.form {
            forms::ADDRESS => Some(fields.z),
            forms::BASE if fields.x == 15 => Some(fields.z.wrapping_add(self.r15_in(place))),
            _ => None,
        }
    }

    /// Where a jump or CALL goes, if the bytes alone tell.
    pub fn jump_target(&self) -> Option<u32> {
        match self.command.flow {
            Flow::Jump | Flow::Branch | Flow::Call => self.fixed_address(0),
            Flow::Next | Flow::End => None,
        }
    }

    /// Whether the desk may go on at the next command.
    pub fn falls_through(&self) -> bool {
        matches!(self.command.flow, Flow::Next | Flow::Branch | Flow::Call) && !self.writes_r15()
    }

    fn writes_r15(&self) -> bool {
        let written = |role| matches!(role, Role::Destination | Role::Update);
        let r15 = |fields: &Fields| fields.form == forms::REGISTER && fields.x == 15;
        self.command.operands.iter().zip(&self.operands).any(|(operand, fields)| written(operand.role) && r15(fields))
    }
}
