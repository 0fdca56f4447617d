//! A memory loaded from a list, by the library's own call.

use super::commands;
use super::wrong::{self, Wrong};
use crate::image::{self, complaint, Complaint, Reason};
use crate::{hints, words};
use midesk::Refusal;

/// A list that the library refused, for a memory of this length.
#[derive(Clone, PartialEq, Eq, Debug)]
pub struct Refused<'a> {
    pub refusal: Refusal,
    pub(super) list: &'a [u8],
    pub(super) length: usize,
}

/// A memory of zeros, of this length or of the least that the list needs, with the list loaded.
pub fn memory(list: &[u8], length: Option<usize>) -> Result<Vec<u8>, Refused<'_>> {
    let length = length.unwrap_or_else(|| least_length(list));
    let mut memory = vec![0; length];
    match midesk::load(&mut memory, list) {
        Ok(()) => Ok(memory),
        Err(refusal) => Err(Refused { refusal, list, length }),
    }
}

/// Whole frames up to the last byte that the list puts; at most the largest memory, which then refuses it.
pub fn least_length(list: &[u8]) -> usize {
    let ends = commands::puts(list).filter(|put| put.count() > 0).map(|put| put.end());
    let end = ends.max().unwrap_or(0).min(image::LARGEST as u64);
    image::whole_frames(end as usize)
}

impl<'a> Refused<'a> {
    /// What is wrong and where; none where the refusal is not about the list.
    pub fn wrong(&self) -> Option<Wrong<'a>> {
        wrong::find(self.list, self.length).filter(|wrong| wrong.number() == self.refusal.number())
    }

    /// `refusal 17: an unknown command: byte 12 (Ch) of the list is 07h, ..`.
    pub fn words(&self) -> String {
        format!("refusal {}: {}", self.refusal.number(), self.what())
    }

    /// The same without its number.
    pub(super) fn what(&self) -> String {
        match (self.wrong(), self.refusal) {
            (Some(wrong), _) => wrong.words(),
            (None, Refusal::Length) => format!("{} ({})", self.refusal, words::memory_length(self.length)),
            (None, refusal) => words::list_refusal(refusal.number()).to_string(),
        }
    }

    /// Where to look.
    pub fn hint(&self) -> Option<String> {
        self.wrong().map(|wrong| hints::of_list(&wrong, self.list, None).line())
    }

    /// What is told of the file.
    pub fn complaints(&self, file: &str) -> Vec<Complaint> {
        complaints(file, self.refusal, self.words(), self.hint())
    }
}

/// What is told of a file, or of two, that the library refused.
pub(super) fn complaints(file: &str, refusal: Refusal, words: String, hint: Option<String>) -> Vec<Complaint> {
    let sentences = std::iter::once(words).chain(hint);
    let reason = Reason::Refused(refusal);
    sentences.map(|sentence| Complaint { reason, ..complaint(file, 0, 0, sentence) }).collect()
}
