//! Which program reaches which frames: the programs of a memory with their maps, page by page.

use crate::image::Program;
use crate::machine::Machine;
use crate::trial;
use crate::view::{self, Damage, Rights};
use midesk::{numbers, Desk};
use std::collections::BTreeMap;

/// Pages of one map that are looked at; a memory has at most half as many frames.
const MOST_PAGES: u32 = 65_536;
/// Programs of a file without names.
const MOST_PROGRAMS: usize = 64;
/// Pages of one program that lead to one frame and are counted.
const MOST_REACHES: usize = 8;

/// A program with its pages.
#[derive(Clone, Debug)]
pub struct Mapped {
    pub name: String,
    pub control_block: u32,
    pub map_base: u32,
    pub map_length: u32,
    /// R15 in the control block.
    pub start: u32,
    pub pages: Vec<Page>,
}

/// A page: its entry, and the frame and rights or what is wrong.
#[derive(Clone, Debug)]
pub struct Page {
    pub number: u32,
    pub entry: u32,
    pub leads: Result<(u32, Rights), Damage>,
}

/// A program's page that leads to a frame.
#[derive(Clone, Copy, PartialEq, Eq, Debug)]
pub struct Reach {
    /// The place of the program in the atlas.
    pub program: usize,
    pub page: u32,
    pub rights: Rights,
}

/// Programs and frames of a memory.
#[derive(Clone, Debug)]
pub struct Atlas {
    pub programs: Vec<Mapped>,
    pub reached: BTreeMap<u32, Vec<Reach>>,
    pub frames: u32,
}

impl Atlas {
    /// The maps as they stand in the machine's memory; the programs that a trial run of `fresh` meets, where no names are
    /// known.
    pub fn of(machine: &Machine, fresh: &Machine) -> Atlas {
        let programs: Vec<Mapped> = match machine.known.programs.is_empty() {
            false => machine.known.programs.iter().filter_map(|program| declared(&machine.memory, program)).collect(),
            true => found_programs(fresh).iter().filter_map(|program| declared(&machine.memory, program)).collect(),
        };
        let mut reached: BTreeMap<u32, Vec<Reach>> = BTreeMap::new();
        for (place, program) in programs.iter().enumerate() {
            for page in &program.pages {
                if let Ok((frame, rights)) = page.leads {
                    let reach = Reach { program: place, page: page.number, rights };
                    let reaches = reached.entry(frame).or_default();
                    if reaches.iter().filter(|reach| reach.program == place).count() < MOST_REACHES {
                        reaches.push(reach);
                    }
                }
            }
        }
        Atlas { programs, reached, frames: (machine.memory.len() / 512) as u32 }
    }

    /// Who reaches a frame.
    pub fn reaches(&self, frame: u32) -> &[Reach] {
        self.reached.get(&frame).map_or(&[], Vec::as_slice)
    }

    /// Whether several programs reach a frame.
    pub fn shared(&self, frame: u32) -> bool {
        let reaches = self.reaches(frame);
        reaches.iter().any(|reach| reaches.first().is_some_and(|first| first.program != reach.program))
    }
}

fn declared(memory: &[u8], program: &Program) -> Option<Mapped> {
    mapped(memory, &program.name, program.control_block)
}

/// The program of a control block; none where the block is not in the memory.
pub fn mapped(memory: &[u8], name: &str, block: u32) -> Option<Mapped> {
    let word = |offset: usize| view::word(memory, block.checked_add(offset as u32)?);
    let (map_base, map_length) = (word(numbers::CONTROL_MAP_BASE)?, word(numbers::CONTROL_MAP_LENGTH)?);
    let pages = pages(memory, map_base, map_length);
    Some(Mapped { name: name.to_string(), control_block: block, map_base, map_length, start: word(60)?, pages })
}

/// The pages of a map, as far as it lies in the memory.
pub fn pages(memory: &[u8], base: u32, length: u32) -> Vec<Page> {
    let page = |number: u32| {
        let entry = view::word(memory, base.checked_add(number.checked_mul(4)?)?)?;
        Some(Page { number, entry, leads: view::entry_of(memory, number, entry) })
    };
    (0..length.min(MOST_PAGES)).map_while(page).collect()
}

/// The programs of a file that names none: those of a trial run.
pub fn found_programs(fresh: &Machine) -> Vec<Program> {
    let desk = &fresh.desk;
    let image = trial::image_of(fresh);
    let mut blocks = trial::run(&image).blocks;
    if blocks.is_empty() {
        blocks.extend(likely(desk, &fresh.memory));
    }
    let program = |(place, block): (usize, &u32)| trial::program(&fresh.memory, *block, place);
    blocks.iter().enumerate().filter_map(program).take(MOST_PROGRAMS).collect()
}

/// The control block of the fresh desk, if it has a map.
fn likely(desk: &Desk, memory: &[u8]) -> Option<u32> {
    let program = mapped(memory, "", desk.control_block())?;
    let fits = u64::from(program.map_base) + 4 * u64::from(program.map_length) <= memory.len() as u64;
    (program.map_length > 0 && fits).then_some(desk.control_block())
}
