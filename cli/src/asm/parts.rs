//! The parts of a source, each with its own address, and the load list of them.

use super::layout::Position;
use super::result::Assembled;
use crate::image;
use crate::load::{self, Packed};
use std::ops::Range;

/// The real addresses that the statements give bytes to, in the order of the source, RES and ALI among them. What follows
/// on the bytes before it belongs to their part.
pub fn parts(positions: &[Position]) -> Vec<Range<u32>> {
    let mut parts: Vec<Range<u32>> = Vec::new();
    for position in positions.iter().filter(|position| position.length > 0) {
        let end = position.real.saturating_add(position.length);
        match parts.last_mut().filter(|part| part.end == position.real) {
            Some(part) => part.end = end,
            None => parts.push(position.real..end),
        }
    }
    parts
}

impl Assembled {
    /// The load list that gives the image's memory. Zeros that the source does not write are not put, but for the last byte
    /// of a memory that MEMORY makes longer: it tells the length.
    pub fn load_list(&self) -> Packed {
        let bytes = |part: &Range<u32>| self.bytes.get(part.start as usize..part.end as usize).unwrap_or(&[]);
        let end = self.parts.iter().map(|part| part.end as usize).max().unwrap_or(0);
        let length = self.image.memory.len();
        let last = (image::whole_frames(end) < length).then_some((length as u32 - 1, &[0][..]));
        load::packed(self.parts.iter().map(|part| (part.start, bytes(part))).chain(last))
    }
}
