//! What assembling gives: the bytes, and the image with names, programs and lines.

use super::errors::{Errors, Fault};
use super::fields;
use super::layout::{Layout, Position};
use super::sizes;
use super::syntax::{Datum, Entry, Expression, Kind, Statement};
use super::{blocks, columns, parts};
use crate::image::{self, Complaint, Image, Program, SourceLine};
use crate::names::Names;
use crate::notation::hexadecimal;
use crate::table::Size;
use crate::view;
use std::ops::Range;

pub struct Assembled {
    /// From address 0 up to the last byte that the source gives.
    pub bytes: Vec<u8>,
    /// The real addresses of those that the source writes.
    pub parts: Vec<Range<u32>>,
    pub image: Image,
    /// Warnings of pages whose frame is past the memory as the source has it; a desk may be given a longer one.
    pub past_memory: Vec<Complaint>,
}

/// No two statements give one byte.
pub fn check_overlaps(statements: &[Statement], layout: &Layout, errors: &mut Errors) {
    let mut pieces: Vec<(&Statement, &Position)> =
        statements.iter().zip(&layout.positions).filter(|(_, position)| position.length > 0).collect();
    pieces.sort_by_key(|(statement, position)| (position.real, statement.line));
    let mut reached: (u32, Option<&Statement>) = (0, None);
    for (statement, position) in pieces {
        let (end, before) = reached;
        if let Some(before) = before.filter(|_| position.real < end) {
            let (later, earlier) = if statement.line > before.line { (statement, before) } else { (before, statement) };
            let (line, at) = (earlier.line, hexadecimal(position.real));
            let sentence = format!("these bytes overlap those of line {line} at address {at}");
            errors.add(later.line, Fault { column: later.column, sentence });
        }
        if position.real + position.length > end {
            reached = (position.real + position.length, Some(statement));
        }
    }
}

/// Puts the image together.
pub fn assembled(
    source: &str,
    statements: &[Statement],
    layout: &Layout,
    mut bytes: Vec<u8>,
    errors: &mut Errors,
) -> Assembled {
    let mut start = None;
    for (statement, position) in statements.iter().zip(&layout.positions) {
        let word = |expression| layout.symbols.word(expression, position.segment);
        match &statement.kind {
            Kind::Start(expression) => start = errors.keep(statement.line, word(expression)).or(start),
            Kind::Memory(expression) => {
                if let Some(length) = errors.keep(statement.line, word(expression)) {
                    extend(&mut bytes, length, statement, errors);
                }
            }
            _ => {}
        }
    }
    let mut image = image::of_bytes(bytes.clone());
    image.start = start.unwrap_or(image.start);
    let first = |wanted: fn(&Kind) -> bool| {
        let found = statements.iter().zip(&layout.positions).find(|(statement, _)| wanted(&statement.kind));
        found.map(|(_, position)| position.real)
    };
    image.system = first(|kind| matches!(kind, Kind::SystemBlock(_))).unwrap_or(image.system);
    image.control = first(|kind| matches!(kind, Kind::ControlBlock(_))).unwrap_or(image.control);
    image.names = names(layout);
    (image.lines, image.entries) = lines(source, statements, layout);
    image.programs = programs(statements, layout, &image.memory);
    image.warnings = column_warnings(source, statements, layout, &image.memory, errors);
    let past_memory = frame_warnings(statements, layout, &image.memory, errors);
    Assembled { bytes, parts: parts::parts(&layout.positions), image, past_memory }
}

/// What may be wrong with a source that is right: where the columns of a listing disagree with it.
fn column_warnings(
    source: &str,
    statements: &[Statement],
    layout: &Layout,
    memory: &[u8],
    errors: &Errors,
) -> Vec<Complaint> {
    let faults = if errors.is_empty() { columns::check(source, statements, layout, memory) } else { Vec::new() };
    Errors::of(errors.file(), faults).into_complaints("warnings")
}

/// Likewise, where pages are frames past the memory.
fn frame_warnings(statements: &[Statement], layout: &Layout, memory: &[u8], errors: &Errors) -> Vec<Complaint> {
    let past = |(statement, position): (&Statement, &Position)| match &statement.kind {
        Kind::Map { pages, .. } if errors.is_empty() => blocks::past_memory(pages, layout, position, memory),
        _ => Vec::new(),
    };
    let faults = statements.iter().zip(&layout.positions).flat_map(past).collect();
    Errors::of(errors.file(), faults).into_complaints("warnings")
}

fn extend(bytes: &mut Vec<u8>, length: u32, statement: &Statement, errors: &mut Errors) {
    let column = statement.column;
    let allowed = length > 0 && length.is_multiple_of(512) && length as usize <= image::LARGEST;
    if !allowed {
        let sentence =
            format!("expected a memory of 512 to {} bytes, a multiple of 512, found {length}", image::LARGEST);
        errors.add(statement.line, Fault { column, sentence });
    } else if bytes.len() > length as usize {
        let sentence = format!("the source gives bytes up to {}, past this memory", hexadecimal(bytes.len() as u32));
        errors.add(statement.line, Fault { column, sentence });
    } else {
        bytes.resize(length as usize, 0);
    }
}

/// Names of real addresses.
fn names(layout: &Layout) -> Names {
    let mut names = Names::none();
    for (name, place) in layout.symbols.iter().filter(|(_, place)| !place.is_virtual) {
        names.add(name, place.address);
    }
    names
}

/// The lines that gave bytes, and those inside of blocks and maps, by address.
fn lines(source: &str, statements: &[Statement], layout: &Layout) -> (Vec<SourceLine>, Vec<SourceLine>) {
    let texts: Vec<&str> = super::parser::lines(source).collect();
    let text = |line: usize| texts.get(line.wrapping_sub(1)).map_or("", |text| text.trim()).to_string();
    let (mut lines, mut entries) = (Vec::new(), Vec::new());
    for (statement, position) in statements.iter().zip(&layout.positions).filter(|(_, position)| position.length > 0) {
        lines.push(SourceLine {
            address: position.real,
            line: statement.line,
            text: text(statement.line),
            is_command: matches!(statement.kind, Kind::Command { .. }),
            at: position.is_virtual.then_some(position.address),
            size: data_size(&statement.kind, layout, position.segment),
        });
        for (offset, line) in inner_lines(&statement.kind, layout, position.segment) {
            let address = position.real.saturating_add(offset);
            entries.push(SourceLine { address, line, text: text(line), is_command: false, at: None, size: None });
        }
    }
    lines.sort_by_key(|line| (line.address, line.line));
    entries.sort_by_key(|line| (line.address, line.line));
    (lines, entries)
}

/// The lines ON and PAGE of a block, each with its distance from the block's start.
pub fn inner_lines(kind: &Kind, layout: &Layout, segment: usize) -> Vec<(u32, usize)> {
    let number = |expression: &Expression| layout.symbols.word(expression, segment).unwrap_or(0);
    match kind {
        Kind::SystemBlock(entries) => {
            let cause = |entry: &Entry| entry.kind.cause(number(&entry.cause)).unwrap_or(0);
            entries.iter().map(|entry| (8 * cause(entry), entry.line)).collect()
        }
        Kind::Map { pages, .. } => {
            pages.iter().map(|page| (number(&page.first).saturating_mul(4), page.line)).collect()
        }
        _ => Vec::new(),
    }
}

fn data_size(kind: &Kind, layout: &Layout, segment: usize) -> Option<Size> {
    match kind {
        Kind::Data(data) => match data.first()? {
            Datum::Value { size, expression } => sizes::value_size(*size, expression, &layout.symbols, segment).ok(),
            Datum::Text(_) => Some(Size::B),
            Datum::Repeated { .. } => None,
        },
        _ => None,
    }
}

/// A program for each control block, with the names that its map leads to.
fn programs(statements: &[Statement], layout: &Layout, memory: &[u8]) -> Vec<Program> {
    let mut programs = Vec::new();
    for (statement, position) in statements.iter().zip(&layout.positions) {
        if !matches!(statement.kind, Kind::ControlBlock(_)) {
            continue;
        }
        let number = programs.len() + 1;
        let name = statement.labels.first().map_or(format!("block{number}"), |label| label.name.clone());
        let word = |offset| view::word(memory, position.real.saturating_add(offset)).unwrap_or(0);
        let (map_base, map_length) = (word(fields::MAP), word(fields::LENGTH));
        let mut names = Names::none();
        for (name, place) in layout.symbols.iter().filter(|(_, place)| place.is_virtual) {
            if view::real(memory, map_base, map_length, place.address).is_ok_and(|(real, _)| real == place.real) {
                names.add(name, place.address);
            }
        }
        programs.push(Program { name, control_block: position.real, map_base, map_length, names });
    }
    programs
}
