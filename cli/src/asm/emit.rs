//! The bytes of each statement.

use super::blocks;
use super::errors::{fault, Errors, Fault};
use super::floats;
use super::layout::{Layout, Position};
use super::sizes;
use super::symbols::Symbols;
use super::syntax::{Datum, Expression, Kind, Statement, Written};
use crate::decode::Fields;
use crate::forms;
use crate::table::{Command, Size};

/// Names and position of the statement in hand.
pub struct Context<'a> {
    pub symbols: &'a Symbols,
    pub position: Position,
}

/// The bytes of the whole source, from address 0 to the last that it gives.
pub fn emit(statements: &[Statement], layout: &Layout, errors: &mut Errors) -> Vec<u8> {
    let end = layout.positions.iter().filter(|p| p.length > 0).map(|p| p.real as usize + p.length as usize).max();
    let mut memory = vec![0; end.unwrap_or(0)];
    for (statement, position) in statements.iter().zip(&layout.positions) {
        if position.failed {
            continue;
        }
        let context = Context { symbols: &layout.symbols, position: *position };
        let bytes = context.bytes(statement, errors);
        let at = position.real as usize;
        if let Some(room) = memory.get_mut(at..at + bytes.len()) {
            room.copy_from_slice(&bytes);
        }
    }
    memory
}

impl Context<'_> {
    fn bytes(&self, statement: &Statement, errors: &mut Errors) -> Vec<u8> {
        let line = statement.line;
        let result = match &statement.kind {
            Kind::Command { command, operands } => self.command(command, operands),
            Kind::Data(data) => self.data(data),
            Kind::SystemBlock(entries) => return blocks::system_block(self, entries, errors),
            Kind::ControlBlock(fields) => blocks::control_block(self, fields),
            Kind::Map { pages, .. } => return blocks::map(self, pages, errors),
            _ => Ok(Vec::new()),
        };
        errors.keep(line, result).unwrap_or_default()
    }

    pub fn word(&self, expression: &Expression) -> Result<u32, Fault> {
        self.symbols.word(expression, self.position.segment)
    }

    /// A sum as an address; a name in it must be of that kind.
    pub fn place(&self, expression: &Expression, is_virtual: bool) -> Result<u32, Fault> {
        let value = self.symbols.value(expression, self.position.segment)?;
        match value.place {
            Some(place) if place.is_virtual != is_virtual => fault(value.column, mixed(place.is_virtual)),
            _ => value.fitting(32),
        }
    }

    pub fn between(&self, expression: &Expression, what: &str, from: u32, to: u32) -> Result<u32, Fault> {
        self.symbols.between(expression, self.position.segment, what, from, to)
    }

    fn command(&self, command: &Command, operands: &[Written]) -> Result<Vec<u8>, Fault> {
        let mut bytes = vec![command.byte];
        for (operand, rule) in operands.iter().zip(command.operands) {
            bytes.extend(self.operand(operand, rule.size)?.to_bytes());
        }
        Ok(bytes)
    }

    fn operand(&self, operand: &Written, size: Size) -> Result<Fields, Fault> {
        let z = match &operand.z {
            None => 0,
            Some(z) if operand.form == forms::VALUE => self.number(z, size)? as u32,
            Some(z) => self.place(z, self.position.is_virtual)?,
        };
        Ok(Fields { form: operand.form, x: operand.x, y: operand.y, z })
    }

    /// A number of a size, whole or floating.
    fn number(&self, expression: &Expression, size: Size) -> Result<u64, Fault> {
        match size.is_floating() {
            true => floats::bits(expression, size, self.symbols),
            false => {
                let value = self.symbols.value(expression, self.position.segment)?;
                value.fitting(8 * size.bytes()).map(u64::from)
            }
        }
    }

    fn data(&self, data: &[Datum]) -> Result<Vec<u8>, Fault> {
        let mut bytes = Vec::new();
        for datum in data {
            match datum {
                Datum::Text(text) => bytes.extend(text),
                Datum::Value { size, expression } => bytes.extend(self.datum(*size, expression)?),
                Datum::Repeated { group, times } => {
                    let group = self.data(group)?;
                    bytes.extend(group.repeat(self.between(times, "how often", 0, self.position.length)? as usize));
                }
            }
        }
        Ok(bytes)
    }

    fn datum(&self, size: Option<Size>, expression: &Expression) -> Result<Vec<u8>, Fault> {
        let size = sizes::value_size(size, expression, self.symbols, self.position.segment)?;
        let bytes = self.number(expression, size)?.to_be_bytes();
        Ok(bytes.get(8 - size.bytes() as usize..).unwrap_or(&[]).to_vec())
    }
}

/// A name of the other kind of address is hardly ever meant.
fn mixed(is_virtual: bool) -> &'static str {
    match is_virtual {
        true => "this name has a virtual address (its segment has AT), and here addresses are real; write the real address",
        false => "this name has a real address, and here addresses are virtual (SEG .. AT); give its segment AT, or write the virtual address",
    }
}
