//! Which address each statement gets.

use super::errors::{fault, Errors, Fault};
use super::fields;
use super::lexer::shown;
use super::sizes;
use super::symbols::{Place, Symbols};
use super::syntax::{Expression, Kind, Label, Statement};
use crate::image::LARGEST;
use crate::notation::hexadecimal;

/// Where a statement's bytes go.
#[derive(Clone, Copy, PartialEq, Eq, Debug)]
pub struct Position {
    pub segment: usize,
    /// As the segment counts.
    pub address: u32,
    pub real: u32,
    pub length: u32,
    pub is_virtual: bool,
    /// Its place or its length could not be told; it gives no bytes, and no more complaints.
    pub failed: bool,
}

pub struct Layout {
    pub symbols: Symbols,
    /// One for each statement.
    pub positions: Vec<Position>,
}

/// Where a source without SEG begins: where a fresh desk starts.
const FIRST: u32 = 0x200;

struct Builder<'a> {
    symbols: Symbols,
    errors: &'a mut Errors,
    segment: usize,
    real: u32,
    /// What is added to a real address to make it a virtual one.
    shift: Option<u32>,
    /// Names of segments, which are told last.
    segment_names: Vec<(Label, Place)>,
}

pub fn layout(statements: &[Statement], errors: &mut Errors) -> Layout {
    let symbols = Symbols::default();
    let mut builder = Builder { symbols, errors, segment: 0, real: FIRST, shift: None, segment_names: Vec::new() };
    for label in statements.iter().flat_map(|statement| &statement.labels) {
        builder.symbols.announce(&label.name);
    }
    let positions = statements.iter().map(|statement| builder.statement(statement)).collect();
    for (label, place) in std::mem::take(&mut builder.segment_names) {
        builder.name(&label, place);
    }
    Layout { symbols: builder.symbols, positions }
}

impl Builder<'_> {
    fn statement(&mut self, statement: &Statement) -> Position {
        let placed = self.place(statement);
        let (length, failed) = (*placed.as_ref().unwrap_or(&0), placed.is_err());
        self.errors.keep(statement.line, placed);
        let (segment, real, is_virtual) = (self.segment, self.real, self.shift.is_some());
        let position = Position { segment, address: self.address(), real, length, is_virtual, failed };
        self.labels(statement);
        self.real = self.real.saturating_add(length);
        position
    }

    fn address(&self) -> u32 {
        self.real.wrapping_add(self.shift.unwrap_or(0))
    }

    /// Moves to where the statement stands, and gives its length.
    fn place(&mut self, statement: &Statement) -> Result<u32, Fault> {
        if let Kind::Segment { address, at } = &statement.kind {
            return self.begin_segment(address.as_ref(), at.as_ref()).map(|()| 0);
        }
        let length = sizes::length(statement, self.real, &self.symbols, self.segment)?;
        if sizes::is_block(&statement.kind) && !self.real.is_multiple_of(4) {
            let here = hexadecimal(self.real);
            return fault(
                statement.column,
                format!(
                    "blocks and maps stand at multiples of 4, and here is {here}; ALI 2 above it goes to the next one"
                ),
            );
        }
        match length.saturating_add(u64::from(self.real)) <= LARGEST as u64 {
            true => Ok(length as u32),
            false => fault(statement.column, format!("this goes past the largest memory, {LARGEST} bytes")),
        }
    }

    fn begin_segment(&mut self, address: Option<&Expression>, at: Option<&Expression>) -> Result<(), Fault> {
        self.segment += 1;
        self.shift = None;
        if let Some(address) = address {
            self.real = self.symbols.between(address, self.segment, "an address", 0, LARGEST as u32)?;
        }
        if let Some(at) = at {
            self.shift = Some(self.symbols.word(at, self.segment)?.wrapping_sub(self.real));
        }
        Ok(())
    }

    fn labels(&mut self, statement: &Statement) {
        let is_segment = matches!(statement.kind, Kind::Segment { .. });
        for label in &statement.labels {
            let place = Place {
                segment: self.segment,
                address: self.address(),
                real: self.real,
                is_virtual: self.shift.is_some(),
                line: label.line,
                column: label.column,
                map_length: sizes::map_length(&statement.kind, &self.symbols, self.segment),
            };
            if is_segment {
                self.symbols.add_segment(&label.name, self.segment);
                self.segment_names.push((label.clone(), place));
                continue;
            }
            self.name(label, place);
            if matches!(statement.kind, Kind::ControlBlock(_)) {
                self.field_names(label, place);
            }
        }
    }

    fn name(&mut self, label: &Label, place: Place) {
        if let Some(before) = self.symbols.add(&label.name, place) {
            let sentence =
                format!("'{}' is given twice in this segment: line {} has it already", shown(&label.name), before.line);
            self.errors.add(label.line, Fault { column: label.column, sentence });
        }
    }

    /// `block.R15` and the other fields of a control block.
    fn field_names(&mut self, label: &Label, place: Place) {
        for (field, offset) in fields::FIELDS {
            let (address, real) = (place.address.wrapping_add(*offset), place.real.saturating_add(*offset));
            self.symbols.add(&format!("{}.{field}", label.name), Place { address, real, map_length: None, ..place });
        }
    }
}
