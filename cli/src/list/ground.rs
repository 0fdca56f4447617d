//! The memory as the listing divides it: what is taken by blocks, maps and commands, and in whose addresses each frame is
//! shown.

use crate::image::{Image, Program};
use crate::view;
use std::collections::BTreeSet;

#[derive(Clone, Copy, PartialEq, Eq, Debug)]
enum Byte {
    Free,
    /// The first byte of a block, a map or a command.
    First,
    Inside,
}

/// A frame shown as a page of a program.
#[derive(Clone, Copy, PartialEq, Eq, Debug)]
pub struct Shown {
    pub program: usize,
    pub page: u32,
    pub frame: u32,
}

pub struct Ground {
    bytes: Vec<Byte>,
    /// Frames that blocks, maps or the kernel's commands use, and those that the source gives real addresses: shown so.
    kernel: BTreeSet<u32>,
    shown: Vec<Option<Shown>>,
}

/// Pages of one map that are looked at; no memory has more frames.
const MOST_PAGES: u32 = 32_768;

impl Ground {
    pub fn new(image: &Image) -> Ground {
        let frames = image.memory.len() / 512;
        let real_lines = image.lines.iter().filter(|line| line.at.is_none());
        let kernel = real_lines.map(|line| line.address / 512).collect();
        Ground { bytes: vec![Byte::Free; image.memory.len()], kernel, shown: vec![None; frames] }
    }

    /// Takes bytes that are still free; else nothing is done.
    pub fn take(&mut self, real: u32, length: u32, kernel: bool) -> bool {
        let at = real as usize;
        let Some(bytes) = self.bytes.get_mut(at..at.saturating_add(length as usize)) else { return false };
        if bytes.is_empty() || bytes.iter().any(|byte| *byte != Byte::Free) {
            return false;
        }
        bytes.fill(Byte::Inside);
        if let Some(first) = bytes.first_mut() {
            *first = Byte::First;
        }
        if kernel {
            self.kernel.extend(real / 512..=(real + length - 1) / 512);
        }
        true
    }

    pub fn is_free(&self, real: u32) -> bool {
        self.bytes.get(real as usize) == Some(&Byte::Free)
    }

    /// Whether a label may stand there: not inside of something; at the memory's end too.
    pub fn is_boundary(&self, real: u32) -> bool {
        let at_end = real as usize == self.bytes.len();
        at_end || matches!(self.bytes.get(real as usize), Some(Byte::Free | Byte::First))
    }

    /// The first byte from `real` on, below `end`, that is not free.
    pub fn free_until(&self, real: u32, end: u32) -> u32 {
        let bytes = self.bytes.get(real as usize..end as usize).unwrap_or(&[]);
        let free = bytes.iter().take_while(|byte| **byte == Byte::Free).count();
        real + free as u32
    }

    /// Shows each frame that programs alone use as a page: of the first that may run and write it, else of the first that
    /// may run it, else write it, else of the first that reaches it.
    pub fn show(&mut self, image: &Image, programs: &[Program]) {
        for wanted in [(true, true), (true, false), (false, true), (false, false)] {
            for (place, program) in programs.iter().enumerate() {
                for page in 0..program.map_length.min(MOST_PAGES) {
                    let Ok((real, rights)) =
                        view::real(&image.memory, program.map_base, program.map_length, page * 512)
                    else {
                        continue;
                    };
                    let frame = real / 512;
                    if (rights.fetch, rights.write) == wanted && !self.kernel.contains(&frame) {
                        self.show_frame(Shown { program: place, page, frame });
                    }
                }
            }
        }
    }

    fn show_frame(&mut self, shown: Shown) {
        if let Some(place @ None) = self.shown.get_mut(shown.frame as usize) {
            *place = Some(shown);
        }
    }

    pub fn shown(&self, real: u32) -> Option<Shown> {
        self.shown.get((real / 512) as usize).copied().flatten()
    }

    /// What is added to the real address to make it the one shown.
    pub fn shift(&self, real: u32) -> Option<u32> {
        self.shown(real).map(|shown| (shown.page * 512).wrapping_sub(shown.frame * 512))
    }
}
