//! The listing of an image: a source that gives the same image, with addresses and bytes before a bar.
//!
//! `follow` finds the commands, `ground` divides the memory, `labels` names places, `write` makes the lines.

mod blocks;
mod data;
mod follow;
mod ground;
mod labels;
mod lines;
mod pages;
mod remarks;
mod verb;
mod write;

pub use verb::main;

use crate::image::{Image, Program};
use crate::names::Names;
use crate::trial::{self, Trial};
use crate::{asm, view};
use follow::{Code, Space};
use ground::Ground;
use labels::{BlockName, Labels, Sources};
use lines::Line;
use pages::Pages;
use std::borrow::Cow;
use std::collections::BTreeMap;

/// What stands at a place as a directive.
#[derive(Clone, Copy, PartialEq, Eq, Debug)]
enum Block {
    System,
    Control(usize),
    Map(usize),
}

/// The longest map that is written as one.
const LONGEST_MAP: u32 = 32_768;

/// What is found out of an image.
struct Survey {
    programs: Vec<Program>,
    ground: Ground,
    code: Code,
    blocks: BTreeMap<u32, Block>,
    labels: Labels,
}

/// The listing.
pub fn listing(image: &Image, title: &str) -> String {
    lines::written(&all_lines(&bare(image), title))
}

/// The listing without the columns of addresses and bytes.
pub fn plain(image: &Image, title: &str) -> String {
    lines::plain(&all_lines(&bare(image), title))
}

/// The names of real addresses and the programs, with theirs, as the listing of an image has them that brings none.
pub fn made_names(image: &Image) -> (Names, Vec<Program>) {
    let Survey { mut programs, mut labels, .. } = survey(&bare(image));
    for (program, names) in programs.iter_mut().zip(&mut labels.programs) {
        program.names = std::mem::take(names);
    }
    (labels.kernel, programs)
}

/// The image without the names that a listing has made.
fn bare(image: &Image) -> Cow<'_, Image> {
    match image.names_are_made {
        true => Cow::Owned(Image { names: Names::none(), programs: Vec::new(), ..image.clone() }),
        false => Cow::Borrowed(image),
    }
}

fn all_lines(image: &Image, title: &str) -> Vec<Line> {
    let Survey { programs, ground, code, blocks, labels } = &survey(image);
    let pages = &Pages::new(image, programs, ground);
    write::lines(&write::Parts { image, title, programs, ground, pages, code, blocks, labels })
}

fn survey(image: &Image) -> Survey {
    let mut ground = Ground::new(image);
    let mut blocks = BTreeMap::new();
    let places = blocks::kernel_places(&image.memory, image.system);
    if image.system.is_multiple_of(4)
        && !places.is_empty()
        && ground.take(image.system, asm::fields::SYSTEM_BLOCK, true)
    {
        blocks.insert(image.system, Block::System);
    }
    let trial = trial_of(image);
    let mut programs = image.programs.clone();
    add_programs(image, &mut programs, &trial.blocks);
    take_blocks(image, &programs, &mut ground, &mut blocks);
    let mut code = kernel_code(image, &mut ground, &trial, &places);
    if image.programs.is_empty() {
        add_programs(image, &mut programs, &code.resumed);
        take_blocks(image, &programs, &mut ground, &mut blocks);
    }
    ground.show(image, &programs);
    program_code(image, &programs, &mut ground, &trial, &mut code);
    let named = block_names(&blocks, &programs);
    let sources = Sources { image, programs: &programs, ground: &ground, code: &code, blocks: &named };
    let labels = Labels::new(&sources);
    Survey { programs, ground, code, blocks, labels }
}

/// What a trial run tells that the image does not: of a source neither its programs, if it has some, nor the kernel's code.
fn trial_of(image: &Image) -> Trial {
    let of_source = !image.lines.is_empty();
    if of_source && !image.programs.is_empty() {
        return Trial::default();
    }
    let mut trial = trial::run(image);
    if of_source {
        trial.kernel.clear();
    }
    trial
}

/// The kernel's code: from the start, from the system block, and from where a trial run or the source has commands.
fn kernel_code(image: &Image, ground: &mut Ground, trial: &Trial, places: &[u32]) -> Code {
    let mut code = Code::default();
    for place in std::iter::once(&image.start).chain(places) {
        code.follow(image, &[], ground, Space::Kernel, *place);
        code.refer_to_code(Space::Kernel, *place);
    }
    let of_source = image.lines.iter().filter(|line| line.is_command && line.at.is_none());
    for place in trial.kernel.iter().copied().chain(of_source.map(|line| line.address)) {
        code.follow(image, &[], ground, Space::Kernel, place);
    }
    code
}

/// The programs' code, likewise.
fn program_code(image: &Image, programs: &[Program], ground: &mut Ground, trial: &Trial, code: &mut Code) {
    for (number, program) in programs.iter().enumerate() {
        let space = Space::Program(number);
        let block = program.control_block;
        if let Some(start) = view::word(&image.memory, block.saturating_add(60)) {
            code.follow(image, programs, ground, space, start);
            code.refer_to_code(space, start);
        }
        for (_, place) in trial.user.range((block, 0)..=(block, u32::MAX)) {
            code.follow(image, programs, ground, space, *place);
        }
        for line in image.lines.iter().filter(|line| line.is_command) {
            let Some(at) = line.at else { continue };
            let is_its = follow::real(image, programs, space, at) == Some(line.address);
            if is_its && follow::fetched_byte(image, programs, space, at).is_ok() {
                code.follow(image, programs, ground, space, at);
            }
        }
    }
}

fn add_programs(image: &Image, programs: &mut Vec<Program>, control_blocks: &[u32]) {
    for block in control_blocks.iter().copied() {
        if block.is_multiple_of(4) && programs.iter().all(|program| program.control_block != block) {
            programs.extend(trial::program(&image.memory, block, programs.len()));
        }
    }
}

/// Takes the bytes of control blocks and maps, where they are free.
fn take_blocks(image: &Image, programs: &[Program], ground: &mut Ground, blocks: &mut BTreeMap<u32, Block>) {
    for (place, program) in programs.iter().enumerate() {
        let block = program.control_block;
        let inside = view::word(&image.memory, block.saturating_add(asm::fields::LENGTH)).is_some();
        if inside && block.is_multiple_of(4) && ground.take(block, asm::fields::CONTROL_BLOCK, true) {
            blocks.insert(block, Block::Control(place));
        }
        let (base, length) = (program.map_base, program.map_length);
        if base.is_multiple_of(4) && (1..=LONGEST_MAP).contains(&length) && ground.take(base, 4 * length, true) {
            blocks.insert(base, Block::Map(place));
        }
    }
}

/// What control blocks and maps are called where the image has no name for them.
fn block_names(blocks: &BTreeMap<u32, Block>, programs: &[Program]) -> BTreeMap<u32, BlockName> {
    let plain = |place: usize| -> String {
        let name = programs.get(place).map_or("", |program| program.name.as_str());
        name.chars().filter(|c| c.is_ascii_alphanumeric() || *c == '_').collect()
    };
    let mut names = BTreeMap::new();
    for (real, block) in blocks {
        let (name, is_control) = match *block {
            Block::System => continue,
            Block::Control(place) => (plain(place), true),
            Block::Map(place) => {
                let name = plain(place);
                (format!("map{}", name.strip_prefix("block").unwrap_or(&name)), false)
            }
        };
        names.insert(*real, BlockName { name, is_control });
    }
    names
}
