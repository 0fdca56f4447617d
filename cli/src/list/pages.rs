//! Whose pages the frames are, and which frames stand under one heading.

use super::ground::Ground;
use crate::image::{Image, Program};
use crate::view::{self, Rights};

/// Pages of one map that are looked at.
const MOST_PAGES: u32 = 32_768;

/// A page of a program that leads to a frame.
#[derive(Clone, Copy, PartialEq, Eq, Debug)]
struct Reach {
    program: usize,
    page: u32,
    rights: Rights,
}

/// Frames in a row that are shown as pages in a row, with the same rights of the same programs.
#[derive(Clone, Copy, PartialEq, Eq, Debug)]
pub struct Group {
    pub first: u32,
    pub last: u32,
}

pub struct Pages {
    reaches: Vec<Vec<Reach>>,
    /// By frame; none for frames with real addresses.
    groups: Vec<Option<Group>>,
}

impl Pages {
    pub fn new(image: &Image, programs: &[Program], ground: &Ground) -> Pages {
        let reaches = reaches(image, programs);
        let mut groups = vec![None; reaches.len()];
        let mut first = 0;
        while (first as usize) < reaches.len() {
            let mut last = first;
            if ground.shown(512 * first).is_some() {
                while continues(&reaches, ground, last + 1) {
                    last += 1;
                }
                if let Some(frames) = groups.get_mut(first as usize..=last as usize) {
                    frames.fill(Some(Group { first, last }));
                }
            }
            first = last + 1;
        }
        Pages { reaches, groups }
    }

    pub fn group(&self, real: u32) -> Option<Group> {
        self.groups.get(real as usize / 512).copied().flatten()
    }

    /// `frames 5 and 6: pages 2 and 3 of blockA (read, write, run)`.
    pub fn heading(&self, group: Group, programs: &[Program]) -> String {
        let more = group.last - group.first;
        let reach = |reach: &Reach| {
            let name = programs.get(reach.program).map_or("", |program| program.name.as_str());
            format!("{} of {name} ({})", row("page", reach.page, more), reach.rights.words())
        };
        let reaches = self.reaches.get(group.first as usize).map_or(&[][..], Vec::as_slice);
        let who: Vec<String> = reaches.iter().map(reach).collect();
        format!("{}: {}", row("frame", group.first, more), who.join("; "))
    }
}

/// Whether a frame goes on with what the frame before it is.
fn continues(reaches: &[Vec<Reach>], ground: &Ground, frame: u32) -> bool {
    let before = frame.wrapping_sub(1);
    let (Some(here), Some(there)) = (reaches.get(frame as usize), reaches.get(before as usize)) else { return false };
    let next = |reach: &Reach| Reach { page: reach.page + 1, ..*reach };
    ground.shift(512 * frame) == ground.shift(512 * before)
        && here.len() == there.len()
        && there.iter().map(next).eq(here.iter().copied())
}

fn reaches(image: &Image, programs: &[Program]) -> Vec<Vec<Reach>> {
    let mut found = vec![Vec::new(); image.memory.len() / 512];
    for (place, program) in programs.iter().enumerate() {
        for page in 0..program.map_length.min(MOST_PAGES) {
            let leads = view::real(&image.memory, program.map_base, program.map_length, page * 512);
            let Ok((real, rights)) = leads else { continue };
            if let Some(reaches) = found.get_mut(real as usize / 512) {
                reaches.push(Reach { program: place, page, rights });
            }
        }
    }
    found
}

/// `page 2`, `pages 2 and 3`, `pages 2 to 5`.
fn row(what: &str, first: u32, more: u32) -> String {
    match more {
        0 => format!("{what} {first}"),
        1 => format!("{what}s {first} and {}", first + 1),
        _ => format!("{what}s {first} to {}", first + more),
    }
}
