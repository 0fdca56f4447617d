//! The columns of a listing, which stand before a bar. They are not assembled; where they say something else than the text
//! behind the bar, that is told.

use super::errors::Fault;
use super::layout::Layout;
use super::lexer::columns;
use super::parser;
use super::result::inner_lines;
use super::syntax::{Kind, Statement};
use crate::notation::hexadecimal;
use std::collections::BTreeMap;

/// Where a line's bytes are.
struct Given {
    real: u32,
    /// The virtual address, where the segment has AT.
    at: Option<u32>,
    /// None where it cannot be told from this line alone.
    length: Option<u32>,
}

/// A word of the columns, with its column from 1.
struct Piece<'a> {
    text: &'a str,
    column: usize,
}

/// A fault for each line whose columns disagree.
pub fn check(source: &str, statements: &[Statement], layout: &Layout, memory: &[u8]) -> Vec<(usize, Fault)> {
    let lines = given(statements, layout);
    let mut found = Vec::new();
    let mut moved = 0;
    for (line, text) in (1..).zip(parser::lines(source)) {
        let (Some(columns), Some(given)) = (columns(text), lines.get(&line)) else { continue };
        let pieces = pieces(columns);
        let Some((address, rest)) = pieces.split_first() else { continue };
        let before = moved;
        moved = u32::from_str_radix(address.text, 16).map_or(0, |said| given.real.wrapping_sub(said));
        let fault = match moved {
            0 => check_virtual(rest, given).or_else(|| check_bytes(rest, given, memory)),
            _ if moved != before => Some(other_address(address, given.real, "")),
            _ => None,
        };
        found.extend(fault.map(|fault| (line, fault)));
    }
    found
}

fn given(statements: &[Statement], layout: &Layout) -> BTreeMap<usize, Given> {
    let mut lines: BTreeMap<usize, Given> = BTreeMap::new();
    for (statement, position) in statements.iter().zip(&layout.positions) {
        if position.failed || matches!(statement.kind, Kind::Segment { .. } | Kind::Start(_) | Kind::Memory(_)) {
            continue;
        }
        let at = position.is_virtual.then_some(position.address);
        let inner = inner_lines(&statement.kind, layout, position.segment);
        for (offset, line) in inner {
            let at = at.map(|at| at.wrapping_add(offset));
            lines.insert(line, Given { real: position.real.saturating_add(offset), at, length: None });
        }
        let length = if position.length > 0 { Some(position.length) } else { None };
        let entry = lines.entry(statement.line).or_insert(Given { real: position.real, at, length });
        if entry.real != position.real {
            entry.length = None;
        }
    }
    lines
}

fn pieces(columns: &str) -> Vec<Piece<'_>> {
    let mut column = 1;
    let mut found = Vec::new();
    for text in columns.split([' ', '\t']) {
        if !text.is_empty() {
            found.push(Piece { text, column });
        }
        column += text.len() + 1;
    }
    found
}

fn other_address(piece: &Piece, is: u32, which: &str) -> Fault {
    let (said, is) = (piece.text, hexadecimal(is));
    let sentence =
        format!("the {which}address before the bar is {said}, and this line is at {is}; to move it, write SEG");
    Fault { column: piece.column, sentence }
}

fn check_virtual(pieces: &[Piece], given: &Given) -> Option<Fault> {
    let (at, piece) = (given.at?, pieces.first()?);
    let agrees = u32::from_str_radix(piece.text, 16) == Ok(at);
    (!agrees).then(|| other_address(piece, at, "virtual "))
}

fn check_bytes(pieces: &[Piece], given: &Given, memory: &[u8]) -> Option<Fault> {
    let pieces = if given.at.is_some() { pieces.get(1..)? } else { pieces };
    let mut at = given.real as usize;
    for piece in pieces {
        if piece.text == ".." {
            return None;
        }
        let fault = |sentence| Some(Fault { column: piece.column, sentence });
        let Some((times, unit)) = repeated(piece.text) else {
            return fault(format!("'{}' before the bar is no row of bytes in hexadecimal", piece.text));
        };
        for _ in 0..times {
            let is = memory.get(at..at + unit.len()).unwrap_or(&[]);
            if is != unit {
                let is: String = is.iter().map(|byte| format!("{byte:02X}")).collect();
                let is = if is.is_empty() { "nothing".to_string() } else { is };
                return fault(format!(
                    "'{}' before the bar is not what this line gives, {is}: what stands behind the bar counts",
                    piece.text
                ));
            }
            at += unit.len();
        }
    }
    let (count, last) = (at - given.real as usize, pieces.last()?);
    let length = given.length.filter(|length| *length as usize != count)?;
    let sentence =
        format!("before the bar stand {count} bytes, and this line gives {length}: what stands behind the bar counts");
    Some(Fault { column: last.column, sentence })
}

/// How often, and the bytes; `18*00000000`.
fn repeated(text: &str) -> Option<(usize, Vec<u8>)> {
    let (times, digits) = match text.split_once('*') {
        None => (1, text),
        Some((times, digits)) => (times.parse().ok()?, digits),
    };
    if digits.is_empty() || digits.len() % 2 != 0 {
        return None;
    }
    let pair = |at| u8::from_str_radix(digits.get(at..at + 2)?, 16).ok();
    let bytes: Option<Vec<u8>> = (0..digits.len()).step_by(2).map(pair).collect();
    Some((times, bytes?))
}
