//! Two lists loaded into one memory, by the library's own call.

use super::memory::{self, least_length, Refused};
use super::shared::{self, Clash};
use crate::hints;
use crate::image::Complaint;
use midesk::Refusal;

/// Two lists that the library refused to load together, for a memory of this length.
#[derive(Clone, PartialEq, Eq, Debug)]
pub struct RefusedBoth<'a> {
    pub refusal: Refusal,
    pub why: Why<'a>,
    first: &'a [u8],
    second: &'a [u8],
    length: usize,
}

/// Which of two lists.
#[derive(Clone, Copy, PartialEq, Eq, Debug)]
pub enum Which {
    First,
    Second,
}

/// What two lists are refused for.
#[derive(Clone, PartialEq, Eq, Debug)]
pub enum Why<'a> {
    /// What one of them would be refused for alone.
    List(Which, Refused<'a>),
    Clash(Clash<'a>),
    /// Nothing in the lists: the memory's length.
    Other,
}

/// A memory of zeros, of this length or of the least that both lists need, with both loaded. The scratch that the library
/// wants is as long.
pub fn both<'a>(first: &'a [u8], second: &'a [u8], length: Option<usize>) -> Result<Vec<u8>, RefusedBoth<'a>> {
    let length = length.unwrap_or_else(|| least_length_of_both(first, second));
    let (mut memory, mut scratch) = (vec![0; length], vec![0; length]);
    match midesk::load_both(&mut memory, first, second, &mut scratch) {
        Ok(()) => Ok(memory),
        Err(refusal) => Err(RefusedBoth { refusal, why: why(refusal, first, second, length), first, second, length }),
    }
}

/// Why, and for one of the lists which it is: the second is judged where nothing is wrong with the first.
fn why<'a>(refusal: Refusal, first: &'a [u8], second: &'a [u8], length: usize) -> Why<'a> {
    if refusal == Refusal::Clash {
        return shared::shared(first, second).clash().map_or(Why::Other, Why::Clash);
    }
    let each = [(Which::First, first), (Which::Second, second)];
    let mut alone = each.into_iter().map(|(which, list)| (which, Refused { refusal, list, length }));
    let wrong = alone.find(|(_, refused)| refused.wrong().is_some());
    wrong.map_or(Why::Other, |(which, refused)| Why::List(which, refused))
}

/// Whole frames up to the last byte that either list puts.
pub fn least_length_of_both(first: &[u8], second: &[u8]) -> usize {
    least_length(first).max(least_length(second))
}

impl Which {
    pub fn word(self) -> &'static str {
        match self {
            Which::First => "first",
            Which::Second => "second",
        }
    }
}

impl RefusedBoth<'_> {
    /// `refusal 17 of the second list: an unknown command: ..`, `refusal 23: two unequal last bytes at one address: ..`.
    pub fn words(&self) -> String {
        let number = self.refusal.number();
        match &self.why {
            Why::List(which, refused) => format!("refusal {number} of the {} list: {}", which.word(), refused.what()),
            Why::Clash(clash) => format!("refusal {number}: {}", clash.words()),
            Why::Other => Refused { refusal: self.refusal, list: self.first, length: self.length }.words(),
        }
    }

    /// Where to look.
    pub fn hint(&self) -> Option<String> {
        let hint = match &self.why {
            Why::List(Which::First, refused) => hints::of_list(&refused.wrong()?, self.first, Some(self.second)),
            Why::List(Which::Second, refused) => hints::of_list(&refused.wrong()?, self.second, Some(self.first)),
            Why::Clash(clash) => hints::of_clash(clash),
            Why::Other => return None,
        };
        Some(hint.line())
    }

    /// The file that it is about, of the two; for a clash both.
    pub fn file(&self, first: &str, second: &str) -> String {
        match &self.why {
            Why::List(Which::Second, _) => second.to_string(),
            Why::Clash(_) => format!("{first} and {second}"),
            Why::List(Which::First, _) | Why::Other => first.to_string(),
        }
    }

    /// What is told of the two files.
    pub fn complaints(&self, first: &str, second: &str) -> Vec<Complaint> {
        memory::complaints(&self.file(first, second), self.refusal, self.words(), self.hint())
    }
}
