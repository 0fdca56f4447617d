//! How many bytes a statement takes.

use super::errors::{fault, Fault};
use super::fields;
use super::floats;
use super::symbols::Symbols;
use super::syntax::{Datum, Expression, Item, Kind, Page, Statement};
use crate::image::LARGEST;
use crate::table::Size;

/// No map has more entries: with more it would not lie in the largest memory.
const MOST_PAGES: u32 = LARGEST as u32 / 4;

pub fn length(statement: &Statement, real: u32, symbols: &Symbols, segment: usize) -> Result<u64, Fault> {
    Ok(match &statement.kind {
        Kind::Command { command, .. } => u64::from(command.length()),
        Kind::Data(data) => group(data, symbols, segment)?,
        Kind::Reserve(count) => u64::from(symbols.between(count, segment, "a number of bytes", 0, LARGEST as u32)?),
        Kind::Align(power) => {
            let power = symbols.between(power, segment, "a power of 2", 0, 24)?;
            u64::from(real).next_multiple_of(1 << power) - u64::from(real)
        }
        Kind::SystemBlock(_) => u64::from(fields::SYSTEM_BLOCK),
        Kind::ControlBlock(_) => u64::from(fields::CONTROL_BLOCK),
        Kind::Map { length, pages } => 4 * u64::from(entries(length.as_ref(), pages, symbols, segment)?),
        Kind::Segment { .. } | Kind::Start(_) | Kind::Memory(_) | Kind::Nothing => 0,
    })
}

pub fn is_block(kind: &Kind) -> bool {
    matches!(kind, Kind::SystemBlock(_) | Kind::ControlBlock(_) | Kind::Map { .. })
}

pub fn map_length(kind: &Kind, symbols: &Symbols, segment: usize) -> Option<u32> {
    match kind {
        Kind::Map { length, pages } => entries(length.as_ref(), pages, symbols, segment).ok(),
        _ => None,
    }
}

/// The length of a map: as given, or up to the last page.
fn entries(length: Option<&Expression>, pages: &[Page], symbols: &Symbols, segment: usize) -> Result<u32, Fault> {
    if let Some(length) = length {
        return symbols.between(length, segment, "a number of pages", 0, MOST_PAGES);
    }
    let mut most = 0;
    for page in pages {
        most = most.max(last_page(page, symbols, segment).map_or(0, |last| last + 1));
    }
    Ok(most)
}

/// The last page of a line of a map.
pub fn last_page(page: &Page, symbols: &Symbols, segment: usize) -> Result<u32, Fault> {
    symbols.between(page.last.as_ref().unwrap_or(&page.first), segment, "a page", 0, MOST_PAGES - 1)
}

fn group(data: &[Datum], symbols: &Symbols, segment: usize) -> Result<u64, Fault> {
    let mut total = 0_u64;
    for datum in data {
        total = total.saturating_add(match datum {
            Datum::Text(bytes) => bytes.len() as u64,
            Datum::Value { size, expression } => u64::from(value_size(*size, expression, symbols, segment)?.bytes()),
            Datum::Repeated { group: inner, times } => {
                let times = symbols.between(times, segment, "how often", 0, LARGEST as u32)?;
                group(inner, symbols, segment)?.saturating_mul(u64::from(times))
            }
        });
    }
    Ok(total)
}

/// An address is a word; a number has its size, or the least that holds it with its sign. A floating number has always one.
pub fn value_size(size: Option<Size>, value: &Expression, symbols: &Symbols, segment: usize) -> Result<Size, Fault> {
    let names = value.terms.iter().filter(|term| matches!(&term.item, Item::Name(name) if symbols.is_name(name)));
    let (mut sum, mut any) = (0, false);
    for term in names {
        any = true;
        sum += if term.minus { -1 } else { 1 };
    }
    match (size, sum) {
        (_, 1) => Ok(Size::W),
        (Some(size), _) if size.is_floating() => floats::bits(value, size, symbols).map(|_| size),
        (Some(size), _) => Ok(size),
        (None, _) if any => fault(value.column, "expected a size (B, H or W) before a difference of names"),
        (None, _) => {
            let number = symbols.value(value, segment)?.number;
            Ok(match number {
                -0x80..=0x7F => Size::B,
                -0x8000..=0x7FFF => Size::H,
                _ => Size::W,
            })
        }
    }
}
