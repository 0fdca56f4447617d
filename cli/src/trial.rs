//! The programs of an image that names none: the control blocks that a trial run resumes.

use crate::image::{self, Image, Program};
use crate::machine::Machine;
use crate::names::Names;
use crate::view;
use midesk::{numbers, Desk, Mark};
use std::collections::BTreeSet;

/// Steps of the trial run.
const STEPS: u32 = 100_000;
/// Programs that are told apart.
const MOST: usize = 256;

/// What a trial run meets.
#[derive(Clone, PartialEq, Eq, Debug, Default)]
pub struct Trial {
    /// The control blocks that RESUME names, in its order.
    pub blocks: Vec<u32>,
    /// Where commands of the kernel ran: real addresses.
    pub kernel: BTreeSet<u32>,
    /// Where programs ran: control block and virtual address.
    pub user: BTreeSet<(u32, u32)>,
}

/// A fresh machine as an image without names.
pub fn image_of(fresh: &Machine) -> Image {
    Image {
        memory: fresh.memory.clone(),
        system: fresh.desk.system_block(),
        control: fresh.desk.control_block(),
        start: fresh.desk.register(15),
        ..image::of_bytes(Vec::new())
    }
}

/// Runs an image for a while on a copy of its memory.
pub fn run(image: &Image) -> Trial {
    let mut memory = image.memory.clone();
    let mut trial = Trial::default();
    let Ok(mut desk) = Desk::fresh(&memory, image.system, image.control, image.start) else { return trial };
    for _ in 0..STEPS {
        if desk.mark() != Mark::Running {
            break;
        }
        let (kernel, r15) = (desk.is_kernel(), desk.register(15));
        match kernel {
            true => trial.kernel.insert(r15),
            false => trial.user.insert((desk.control_block(), r15)),
        };
        if desk.step(&mut memory).is_err() || trial.blocks.len() == MOST {
            break;
        }
        let block = desk.control_block();
        if kernel && !desk.is_kernel() && !trial.blocks.contains(&block) {
            trial.blocks.push(block);
        }
    }
    trial
}

/// The program of a control block, if the block lies in the memory. It is called by its control block's name, which is made
/// here: blockA, blockB, blockC ..
pub fn program(memory: &[u8], block: u32, place: usize) -> Option<Program> {
    let word = |offset: usize| view::word(memory, block.checked_add(offset as u32)?);
    let (map_base, map_length) = (word(numbers::CONTROL_MAP_BASE)?, word(numbers::CONTROL_MAP_LENGTH)?);
    Some(Program { name: made_name(place), control_block: block, map_base, map_length, names: Names::none() })
}

fn made_name(place: usize) -> String {
    match u8::try_from(place) {
        Ok(place @ 0..=25) => format!("block{}", char::from(b'A' + place)),
        _ => format!("block{}", place + 1),
    }
}
