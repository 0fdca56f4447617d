//! The bytes of system blocks, control blocks and maps.

use super::emit::Context;
use super::errors::{fault, Errors, Fault};
use super::fields;
use super::layout::{Layout, Position};
use super::sizes;
use super::syntax::{Entry, Expression, Field, FieldName, Frame, Page, PageContent};
use crate::image::LARGEST;
use crate::view::{self, Damage, Rights};

const KERNEL: u32 = 0x8000_0000;
const LAST_FRAME: u32 = view::FRAME;

fn put(bytes: &mut [u8], at: u32, word: u32) {
    if let Some(room) = bytes.get_mut(at as usize..at as usize + 4) {
        room.copy_from_slice(&word.to_be_bytes());
    }
}

pub fn system_block(context: &Context, entries: &[Entry], errors: &mut Errors) -> Vec<u8> {
    let mut bytes = vec![0; fields::SYSTEM_BLOCK as usize];
    let mut seen = Vec::new();
    for entry in entries {
        let Some((cause, to, status)) = errors.keep(entry.line, self::entry(context, entry)) else { continue };
        if seen.contains(&cause) {
            let sentence = format!("cause {cause} has an entry already");
            errors.add(entry.line, Fault { column: entry.cause.column, sentence });
        }
        seen.push(cause);
        put(&mut bytes, 8 * cause, to);
        put(&mut bytes, 8 * cause + 4, status);
    }
    bytes
}

/// Cause, R15 and status.
fn entry(context: &Context, entry: &Entry) -> Result<(u32, u32, u32), Fault> {
    let given = context.symbols.value(&entry.cause, context.position.segment)?;
    let Some(cause) = u32::try_from(given.number).ok().and_then(|number| entry.kind.cause(number)) else {
        return fault(given.column, format!("expected {}, found {}", entry.kind.numbers(), given.number));
    };
    let mut status = match &entry.status {
        Some(status) => context.word(status)?,
        None => KERNEL,
    };
    if let Some(level) = &entry.level {
        status |= level_bits(context, level)?;
    }
    Ok((cause, context.place(&entry.to, false)?, status))
}

fn level_bits(context: &Context, level: &Expression) -> Result<u32, Fault> {
    Ok(16 * context.between(level, "a level", 0, 15)?)
}

pub fn control_block(context: &Context, given: &[Field]) -> Result<Vec<u8>, Fault> {
    let mut bytes = vec![0; fields::CONTROL_BLOCK as usize];
    let mut status = 0;
    let has_length = given.iter().any(|field| field.name == FieldName::Length);
    for field in given {
        match field.name {
            FieldName::Register(15) => put(&mut bytes, 60, context.place(&field.value, true)?),
            FieldName::Register(number) => put(&mut bytes, 4 * u32::from(number), context.word(&field.value)?),
            FieldName::Status => status |= context.word(&field.value)?,
            FieldName::Level => status |= level_bits(context, &field.value)?,
            FieldName::Argument => put(&mut bytes, fields::ARGUMENT, context.word(&field.value)?),
            FieldName::Length => put(&mut bytes, fields::LENGTH, context.word(&field.value)?),
            FieldName::Map => {
                let (base, length) = map_field(context, &field.value, has_length)?;
                put(&mut bytes, fields::MAP, base);
                if let Some(length) = length {
                    put(&mut bytes, fields::LENGTH, length);
                }
            }
        }
    }
    put(&mut bytes, fields::STATUS, status);
    Ok(bytes)
}

/// The base of a map and, where it is not given apart, its length.
fn map_field(context: &Context, map: &Expression, has_length: bool) -> Result<(u32, Option<u32>), Fault> {
    let value = context.symbols.value(map, context.position.segment)?;
    let base = value.real().map_or_else(|| value.fitting(32), Ok)?;
    let at_its_start = value.place.filter(|place| place.real == base);
    match at_its_start.and_then(|place| place.map_length) {
        _ if has_length => Ok((base, None)),
        Some(length) => Ok((base, Some(length))),
        None => fault(value.column, "this is not the name of a MAP: expected one, or LENGTH too"),
    }
}

pub fn map(context: &Context, pages: &[Page], errors: &mut Errors) -> Vec<u8> {
    let mut bytes = vec![0; context.position.length as usize];
    let mut given = vec![false; context.position.length as usize / 4];
    for page in pages {
        let result = one_page(context, page, &mut bytes, &mut given);
        errors.keep(page.line, result);
    }
    bytes
}

fn one_page(context: &Context, page: &Page, bytes: &mut [u8], given: &mut [bool]) -> Result<(), Fault> {
    let first = context.between(&page.first, "a page", 0, LARGEST as u32 / 4)?;
    let last = sizes::last_page(page, context.symbols, context.position.segment)?;
    if last < first {
        return fault(page.first.column, format!("page {first} comes after page {last}"));
    }
    let word = entry_word(context, &page.content)?;
    for number in first..=last {
        match given.get_mut(number as usize) {
            None => {
                return fault(page.first.column, format!("page {number} is past this map of {} pages", given.len()))
            }
            Some(true) => return fault(page.first.column, format!("page {number} is given twice")),
            Some(seen) => *seen = true,
        }
        let step = if matches!(page.content, PageContent::Frame { .. }) { number - first } else { 0 };
        if word & LAST_FRAME > LAST_FRAME - step {
            return fault(page.first.column, "these pages run past the last frame");
        }
        put(bytes, 4 * number, word + step);
    }
    Ok(())
}

fn entry_word(context: &Context, content: &PageContent) -> Result<u32, Fault> {
    Ok(match content {
        PageContent::Word(word) => context.word(word)?,
        PageContent::Absent(None) => 0,
        PageContent::Absent(Some(frame)) => self::frame(context, frame)?,
        PageContent::Frame { frame, rights } => view::PRESENT | right_bits(*rights) | self::frame(context, frame)?,
    })
}

fn right_bits(rights: Rights) -> u32 {
    let write = if rights.write { view::WRITABLE } else { 0 };
    let fetch = if rights.fetch { 0 } else { view::NO_FETCH };
    write | fetch
}

fn frame(context: &Context, frame: &Frame) -> Result<u32, Fault> {
    match frame {
        Frame::Number(number) => context.between(number, "a frame", 0, LAST_FRAME),
        Frame::Of(place) => {
            let value = context.symbols.value(place, context.position.segment)?;
            match value.real() {
                Some(real) => Ok(real / 512),
                None => fault(value.column, "expected a name behind FRAME OF"),
            }
        }
    }
}

/// The lines of a map whose frames are not all in the memory.
pub fn past_memory(pages: &[Page], layout: &Layout, position: &Position, memory: &[u8]) -> Vec<(usize, Fault)> {
    let frames = memory.len() / 512;
    let mut found = Vec::new();
    for page in pages {
        let first = layout.symbols.word(&page.first, position.segment).unwrap_or(0);
        let last = sizes::last_page(page, &layout.symbols, position.segment).unwrap_or(first);
        let entry = |page: u32| view::word(memory, position.real.checked_add(page.checked_mul(4)?)?);
        let is_past = |page: &u32| {
            let leads = entry(*page).map(|entry| view::entry_of(memory, *page, entry));
            matches!(leads, Some(Err(Damage::PastMemory { .. })))
        };
        if let Some(frame) = (first..=last).find(is_past).and_then(entry).map(|entry| entry & LAST_FRAME) {
            let sentence = format!("frame {frame} is past the memory, which has the frames 0 to {}: a use of this page is alarm 10; MEMORY makes the memory longer", frames.saturating_sub(1));
            found.push((page.line, Fault { column: page.first.column, sentence }));
        }
    }
    found
}
